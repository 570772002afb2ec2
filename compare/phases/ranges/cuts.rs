//! Runs over commands with ranges cut at every store.

use super::{bytes, from, own, waiting, ASKED, SETTINGS};
use crate::checker::Checker;
use crate::generate::commands::Command;
use crate::generate::images::with_rows;
use crate::generate::ranges::Range;
use crate::generate::regions::empty;
use crate::generate::rows::Words;
use crate::limits::{LOG2SIZE, ROWS, SLOTS, UPPER};
use crate::phases::cuts::{all_along, every_cut, Work};

const START: u64 = 0x40_0000;

pub fn sweeps(checker: &mut Checker) {
    checker.phase("ranges: runs cut at every store");
    for features in SETTINGS {
        for (code, _) in ASKED.into_iter().filter(|&(_, set)| set == features) {
            for tg in 1..4 {
                every_cut(checker, &few(code, features, tg));
            }
        }
    }
    checker.phase("ranges: the largest queue and table cut all along");
    for (code, features) in ASKED {
        all_along(checker, &one_row_each(code, features));
    }
}

/// Two ranges that overlap, a single address between them, a CMD_SYNC, and one that
/// is a bad parameter at last.
fn few(code: u64, features: u64, tg: u64) -> Work {
    let half = if code == 0x2A { 0 } else { UPPER };
    let rows: Vec<Words> = (0..24)
        .flat_map(|page| [(12, page << 12), (14, page << 14)])
        .filter_map(|(span, page)| own(code, features, span, (START + page) | half, span == 12))
        .collect();
    let at = |page: u64| from(code, (START + (page << 12)) | half);
    let commands = [
        Range::new(tg, 0, 1).over(at(5)),
        at(1),
        (0x1046, 0),
        Range::new(tg, 2, 0).over(at(3)),
        Range {
            ttl: 0,
            ..Range::new(tg, 0, 0)
        }
        .over(at(9)),
        (0x46, 0),
    ];
    let mut queue = commands.to_vec();
    queue.resize(8, (0, 0));
    Work {
        kept: with_rows(waiting(3, commands.len() as u64), &rows),
        table: empty(),
        queue: bytes(&queue),
        features,
    }
}

/// Each row in a granule of its own, and a range for each of them, the last first,
/// among ranges that take nothing.
fn one_row_each(code: u64, features: u64) -> Work {
    let place = |row: u64| START + (row << 17);
    let rows: Vec<Words> = (0..ROWS)
        .filter_map(|row| own(code, features, 12 + row % 5, place(row), row % 2 == 0))
        .collect();
    let command = |slot: u64| match slot % 4 {
        0 if slot / 4 < ROWS => Range::new(3, 0, 0).over(from(code, place(ROWS - 1 - slot / 4))),
        1 => Range::new(2, 31, 3).over(from(code, place(ROWS) + (slot << 12))),
        2 => Range::new(1, 15, 0).over(from(code, place(slot % ROWS) + 0x1_0000)),
        _ => (0x1046, 0),
    };
    let commands: Vec<Command> = (0..SLOTS).map(command).collect();
    Work {
        kept: with_rows(waiting(LOG2SIZE, SLOTS), &rows),
        table: empty(),
        queue: bytes(&commands),
        features,
    }
}
