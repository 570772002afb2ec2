//! The pending bit: what sets it, what keeps it and what clears it (document 02,
//! T-08).

pub mod cases;
mod clears;
mod syncs;
mod words;

use super::cuts::Work;
use super::{bytes, from, run};
use crate::checker::Checker;
use crate::generate::commands::Command;
use crate::generate::images::with_rows;
use crate::generate::regions::empty;
use crate::generate::rows::{cd, cd_table, Words};
use crate::model::control::Control;

const PENDING: u64 = 1 << 55;
const ALL: u64 = 0b1111;
const STREAM: u64 = 0x77;

/// CMD_SYNC with each CS, the last of which raises; a command that removes two
/// rows and one that removes none, both with CS 1 where CMD_SYNC has it.
const KINDS: [Command; 6] = [
    (0x0046, 0),
    (0x1046, 0),
    (0x2046, 0),
    (0x3046, 0),
    (0x05 | 1 << 12 | STREAM << 32, 0),
    (0x1001, 0),
];
const LOG2SIZE: u64 = 2;

pub fn pending(checker: &mut Checker) {
    words::sweeps(checker);
    syncs::sweeps(checker);
    clears::sweeps(checker);
}

/// The rows that one of the kinds removes, and one between them that stays.
fn rows() -> [Words; 3] {
    [cd(STREAM, 1, 9), cd(STREAM, 2, 9), cd_table(STREAM)]
}

/// Every queue of so many commands of those kinds, with the bit clear and set. The
/// first command stands at another place of the ring each time.
fn every_queue(commands: u32, mut each: impl FnMut(&Work)) {
    let slots = 1 << LOG2SIZE;
    let kinds = KINDS.len() as u64;
    for number in 0..kinds.pow(commands) {
        let rd = number % (2 * slots);
        let digit = |place| number / kinds.pow(place) % kinds;
        let mut queue: Vec<_> = (0..commands)
            .map(|place| KINDS[digit(place) as usize])
            .collect();
        queue.resize(slots as usize, (0, 0));
        queue.rotate_right((rd % slots) as usize);
        let queue = bytes(&queue);
        for pending in [false, true] {
            let control = Control {
                pending,
                ..from(LOG2SIZE, rd, commands.into())
            };
            each(&Work {
                kept: with_rows(control, &rows()),
                table: empty(),
                queue: queue.clone(),
                features: ALL,
            });
        }
    }
}
