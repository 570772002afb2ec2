//! Runs over the hypervisor's commands cut at every store, with E2H as it was.

use super::forms::own;
use super::{bytes, first, waiting, ASID, PAGE, SETTINGS, WRITE_BACK};
use crate::checker::Checker;
use crate::generate::commands::Command;
use crate::generate::images::with_rows;
use crate::generate::regions::empty;
use crate::generate::rows::{marked, Reach, Words, EL2_E2H};
use crate::limits::{LOG2SIZE, ROWS, SLOTS};
use crate::phases::cuts::{all_along, every_cut, Work};

pub fn sweeps(checker: &mut Checker) {
    checker.phase("hypervisor: runs cut at every store");
    for features in SETTINGS {
        for (first, second) in [(0, 1), (1, 2), (2, 3), (3, 0), (4, 2), (2, 5), (5, 0)] {
            let commands = commands();
            let work = Work {
                kept: with_rows(waiting(2, 3), &rows()),
                table: empty(),
                queue: bytes(&[commands[first], (0x1046, 0), commands[second], (0, 0)]),
                features,
            };
            every_cut(checker, &work);
        }
    }
    checker.phase("hypervisor: the largest queue and table cut all along");
    for features in SETTINGS {
        all_along(checker, &one_row_each(features));
    }
}

fn commands() -> [Command; 6] {
    [
        (0x20, 0),
        (0x21 | ASID << 48, 0),
        (0x22 | ASID << 48, PAGE),
        (0x23, PAGE | 1),
        (0x30, 0),
        (0x13, PAGE),
    ]
}

/// The hypervisor's rows between a guest's.
fn rows() -> Vec<Words> {
    let guest = first(12, PAGE);
    let mut rows = vec![guest.page(PAGE, WRITE_BACK)];
    rows.extend(own(21, PAGE));
    rows.push(guest.table());
    rows.extend(own(12, PAGE + 0x1000));
    rows
}

/// An EL2-E2H row for each ASID and a command for each of them, the last row first,
/// among commands that find nothing.
fn one_row_each(features: u64) -> Work {
    let of = |asid| Reach {
        asid,
        ..first(12, PAGE)
    };
    let rows: Vec<Words> = (0..ROWS)
        .map(|asid| marked(of(asid).table(), EL2_E2H))
        .collect();
    let command = |slot: u64| match slot % 4 {
        0 if slot / 4 < ROWS => (0x21 | (ROWS - 1 - slot / 4) << 48, 0),
        1 => (0x30, 0),
        _ => (0x1046, 0),
    };
    let commands: Vec<Command> = (0..SLOTS).map(command).collect();
    Work {
        kept: with_rows(waiting(LOG2SIZE, SLOTS), &rows),
        table: empty(),
        queue: bytes(&commands),
        features,
    }
}
