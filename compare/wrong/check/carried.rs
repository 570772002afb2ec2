//! Batches carried out otherwise: not in full, one after the other, or others.

use super::asked::Asked;
use super::made::Made;
use super::Named;
use crate::generate::commands::Command;

/// Commands that don't pass are after nothing.
fn only(asked: &mut Asked, so: impl Fn(&Asked, usize, usize, Command) -> bool) {
    let (idle, legal, copy) = (asked.idle(), asked.legal(), asked.clone());
    let fit = |own: Command| legal(own).is_ok() && !matches!(own.0 as u8, 0x01 | 0x02 | 0x46);
    for batch in [0, 1] {
        asked.change(&[batch], |number, own| {
            match fit(own) && !so(&copy, batch, number, own) {
                true => idle,
                false => own,
            }
        })
    }
}

pub const SEEN: &[Named<fn(&mut Asked)>] = &[
    ("only the first command is carried out", |asked| {
        only(asked, |_, _, number, _| number == 0)
    }),
    ("only the last command is carried out", |asked| {
        only(asked, |asked, batch, number, _| {
            number + 1 == asked.commands(batch).len()
        })
    }),
    ("the last command is not carried out", |asked| {
        only(asked, |asked, batch, number, _| {
            number + 1 < asked.commands(batch).len()
        })
    }),
    ("the proposal's last command is not carried out", |asked| {
        only(asked, |asked, batch, number, _| {
            batch == 0 || number + 1 < asked.commands(1).len()
        })
    }),
    (
        "the proposal is carried out as far as the original goes",
        |asked| {
            only(asked, |asked, batch, number, _| {
                batch == 0 || number < asked.commands(0).len()
            })
        },
    ),
    (
        "the original is carried out as far as the proposal goes",
        |asked| {
            only(asked, |asked, batch, number, _| {
                batch == 1 || number < asked.commands(1).len()
            })
        },
    ),
    ("16 commands are carried out", |asked| {
        only(asked, |_, _, number, _| number < 16)
    }),
    (
        "as many commands as a queue holds are carried out",
        |asked| only(asked, |_, _, number, _| number < 1 << 12),
    ),
    ("65,536 commands are carried out", |asked| {
        only(asked, |_, _, number, _| number < 1 << 16)
    }),
    (
        "as many commands as the image's queue has slots are carried out",
        |asked| {
            let slots = 1 << (asked.kept.first().map_or(0, |word| word >> 50 & 15));
            only(asked, |_, _, number, _| number < slots)
        },
    ),
    ("as many commands as wait are carried out", |asked| {
        let word = asked.kept.first().copied().unwrap_or(0);
        let ring = 2u64 << (word >> 50 & 15);
        let waits = (word >> 20 & 0xF_FFFF).wrapping_sub(word & 0xF_FFFF) % ring;
        only(asked, |_, _, number, _| (number as u64) < waits)
    }),
    (
        "it stops at the first command that is after nothing",
        |asked| {
            let legal = asked.legal();
            only(asked, |asked, batch, number, _| {
                let before = asked.commands(batch).into_iter().take(number.min(64));
                let idle =
                    |own: Command| !legal(own).is_ok_and(|own| asked.scope(own).contains(&true));
                !before.into_iter().any(idle)
            })
        },
    ),
    (
        "it stops at the first command that is after something",
        |asked| {
            let legal = asked.legal();
            only(asked, |asked, batch, number, _| {
                let before = asked.commands(batch).into_iter().take(number.min(64));
                let takes =
                    |own: Command| legal(own).is_ok_and(|own| asked.scope(own).contains(&true));
                !before.into_iter().any(takes)
            })
        },
    ),
];

/// The batches taken for others as a whole.
pub const MADE: &[Named<fn(&mut Made)>] = &[
    (
        "the proposal is carried out on what the original leaves",
        |made| {
            made.compare(|asked| {
                let (one, other) = (asked.gone(0), asked.gone(1));
                (0..one.len()).find(|&row| other[row] && !one[row])
            })
        },
    ),
    (
        "the original is carried out on what the proposal leaves",
        |made| {
            made.compare(|asked| {
                let (one, other) = (asked.gone(0), asked.gone(1));
                (0..one.len()).find(|&row| one[row] && !other[row])
            })
        },
    ),
    ("batches are exchanged", |made| {
        let mut asked = made.asked.clone();
        asked.batches.swap(0, 1);
        (made.number, made.answer) = asked.on_unit();
    }),
    ("the original is compared with itself", |made| {
        let mut asked = made.asked.clone();
        asked.batches[1] = asked.batches[0].clone();
        (made.number, made.answer) = asked.on_unit();
    }),
    ("the proposal is compared with itself", |made| {
        let mut asked = made.asked.clone();
        asked.batches[0] = asked.batches[1].clone();
        (made.number, made.answer) = asked.on_unit();
    }),
    ("an empty original is compared with nothing", |made| {
        if made.number == 0 && made.asked.batches[0].is_empty() {
            made.say([0; 3]);
        }
    }),
    ("an empty proposal is compared with nothing", |made| {
        if made.number == 0 && made.asked.batches[1].is_empty() {
            made.say([0; 3]);
        }
    }),
];
