//! Other commands qualify, and other ones don't.

use super::Fault;
use crate::generate::commands::Command;
use crate::model::command::Effect;
use crate::model::reason::Reason as Why;

/// Whether a command qualifies that the unit finds so.
pub type Reason = fn(Result<Effect, Why>, Command) -> bool;

const CODES: [u8; 17] = [
    0x03, 0x04, 0x05, 0x06, 0x10, 0x11, 0x12, 0x13, 0x20, 0x21, 0x22, 0x23, 0x28, 0x2A, 0x30, 0x70,
    0x73,
];

const REASONS: [(&str, Reason); 12] = [
    ("01 qualifies", |legal, own| idle(legal, own, 0x01)),
    ("02 qualifies", |legal, own| idle(legal, own, 0x02)),
    ("46 qualifies", |legal, own| idle(legal, own, 0x46)),
    ("46 with CS 0 qualifies", |legal, own| {
        idle(legal, own, 0x46) && own.0 >> 12 & 3 == 0
    }),
    ("46 with CS 1 qualifies", |legal, _| {
        legal == Ok(Effect::Signal)
    }),
    ("46 with CS 2 qualifies", |legal, own| {
        idle(legal, own, 0x46) && own.0 >> 12 & 3 == 2
    }),
    ("whatever is legal qualifies", |legal, own| {
        legal.is_ok() && matches!(own.0 as u8, 0x01 | 0x02 | 0x46)
    }),
    ("an illegal command qualifies", |legal, _| legal.is_err()),
    ("an unknown code qualifies", |legal, _| {
        legal == Err(Why::UnknownCode)
    }),
    ("a code without its feature qualifies", |legal, _| {
        legal == Err(Why::FeatureAbsent)
    }),
    ("a command with a Reserved bit qualifies", |legal, _| {
        legal == Err(Why::ReservedBit)
    }),
    ("a command with a bad parameter qualifies", |legal, _| {
        legal == Err(Why::BadParameter)
    }),
];

type Disqualified = fn(&super::Asked, usize, Effect) -> bool;

const DISQUALIFIED: [(&str, Disqualified); 6] = [
    (
        "a command that is after nothing doesn't qualify",
        |asked, _, effect| !asked.scope(effect).contains(&true),
    ),
    (
        "a proposed one that is after nothing doesn't qualify",
        |asked, batch, effect| batch == 1 && !asked.scope(effect).contains(&true),
    ),
    (
        "one with too wide an identifier doesn't qualify",
        |_, _, effect| effect == Effect::TooWide,
    ),
    (
        "one that is after every row doesn't qualify",
        |asked, _, effect| {
            let used = asked.kept[1..].iter().step_by(4).any(|&word| word != 0);
            let scope = asked.scope(effect);
            used && scope[..asked.rows()].iter().all(|&takes| takes)
        },
    ),
    (
        "one for the second table doesn't qualify",
        |_, _, effect| matches!(effect, Effect::RemoveRegions(_)),
    ),
    (
        "one for the second table doesn't qualify if proposed",
        |_, batch, effect| batch == 1 && matches!(effect, Effect::RemoveRegions(_)),
    ),
];

/// Whether it is one of the code, and legal.
fn idle(legal: Result<Effect, Why>, own: Command, code: u64) -> bool {
    legal.is_ok() && own.0 & 0xFF == code
}

pub fn all() -> Vec<(String, Fault)> {
    let mut all = Vec::new();
    for code in CODES {
        let what = format!("{code:02X} doesn't qualify");
        all.push((what, Fault::Unfit(code)));
        for (where_, batches) in [("", &[0, 1][..]), (", if proposed", &[1])] {
            let what = format!("{code:02X} is after nothing{where_}");
            all.push((what, Fault::Idle(code, batches)));
        }
    }
    for (name, reason) in REASONS {
        for (where_, batches) in [
            ("", &[0, 1][..]),
            (" in the original", &[0]),
            (" in the proposal", &[1]),
        ] {
            all.push((format!("{name}{where_}"), Fault::Qualifies(reason, batches)));
        }
    }
    for (name, so) in DISQUALIFIED {
        all.push((name.into(), Fault::Disqualified(so)));
    }
    all
}
