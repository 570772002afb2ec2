//! What the model takes and says, in the numbers of the C interface.

use crate::call::{
    Asked, Reply, CUT, DIFFERS, DROPPED, RAISED, STORED, UNQUALIFIED, WRITE_CUT, YES,
};
use crate::model::attributes::Attributes;
use crate::model::check::Verdict;
use crate::model::control::Control;
use crate::model::events::{self, Written};
use crate::model::fill::Filled;
use crate::model::refusal::Refusal;
use crate::model::run::{End, Report};
use crate::model::transaction::{Outcome, Transaction};
use crate::model::words::bit;

/// The given words, then zeros.
pub fn answer(words: &[u64]) -> [u64; 8] {
    std::array::from_fn(|place| words.get(place).copied().unwrap_or(0))
}

/// What a caller is told: 0 and the answer, or the refusal's number. Refusals 3 and
/// 14 name their row, 20 and 21 their command.
pub fn reply(result: Result<[u64; 8], Refusal>) -> Reply {
    match result {
        Ok(answer) => Reply { number: 0, answer },
        Err(refusal) => Reply {
            number: refusal.number(),
            answer: match refusal {
                Refusal::Row(lowest) | Refusal::TableRow(lowest) => answer(&[lowest as u64]),
                Refusal::FeatureAbsent(command) | Refusal::Fields(command) => {
                    answer(&[command as u64])
                }
                _ => answer(&[]),
            },
        },
    }
}

pub fn ran(report: Report) -> [u64; 8] {
    let end = match report.end {
        End::Off => 0,
        End::Held => 1,
        End::Empty => 2,
        End::Raised => RAISED,
        End::Cut => CUT,
    };
    let (reason, slot) = report
        .raised
        .map_or((0, 0), |raised| (raised.reason.number(), raised.slot));
    answer(&[
        end,
        report.consumed,
        report.stores,
        report.removed,
        report.syncs,
        reason,
        slot,
    ])
}

pub fn filled(filled: Filled) -> [u64; 8] {
    answer(&[u64::from(!filled.whole), filled.stores])
}

pub fn checked(verdict: Verdict) -> [u64; 8] {
    match verdict {
        Verdict::Yes => answer(&[YES]),
        Verdict::Unqualified { proposed, number } => {
            answer(&[UNQUALIFIED, proposed.into(), number as u64])
        }
        Verdict::Differs(row) => answer(&[DIFFERS, row as u64]),
    }
}

pub fn written(written: Written) -> [u64; 8] {
    let end = match written.end {
        events::End::Stored => STORED,
        events::End::Dropped => DROPPED,
        events::End::Cut => WRITE_CUT,
    };
    answer(&[end, written.stores])
}

pub fn standing((control, used): (Control, u64)) -> [u64; 8] {
    let (active, enabled) = (control.active().into(), control.enabled.into());
    answer(&[control.rd, control.wr, control.err, active, enabled, used])
}

pub fn transaction(asked: Asked) -> Transaction {
    Transaction {
        stream: asked.stream.into(),
        substream: asked.substream.into(),
        address: asked.address,
        write: bit(asked.how, 0),
        instruction: bit(asked.how, 1),
        privileged: bit(asked.how, 2),
        attributes: Attributes {
            memattr: asked.memattr,
            sh: asked.sh,
            hints: asked.hints,
        },
    }
}

pub fn translated(outcome: Outcome) -> [u64; 8] {
    match outcome {
        Outcome::Passed(passed) => {
            let held = passed.attributes;
            let (instruction, privileged) = (passed.instruction.into(), passed.privileged.into());
            answer(&[
                0,
                passed.address,
                held.memattr,
                held.sh,
                held.hints,
                instruction,
                privileged,
            ])
        }
        Outcome::Abort => answer(&[1]),
        Outcome::MissSte => answer(&[2]),
        Outcome::MissCd => answer(&[3]),
        Outcome::MissStage1 => answer(&[4]),
        Outcome::MissStage2 => answer(&[5]),
    }
}
