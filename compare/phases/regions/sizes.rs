//! Every size of a command against every size of a row.

use super::{at, scoped, size, ALL, CODES, MIDDLE, ROW_CODES};
use crate::checker::Checker;
use crate::generate::commands::E2H;
use crate::generate::regions::{about, region, Pair};
use crate::limits::ADDRESS;

pub fn sweeps(checker: &mut Checker) {
    checker.phase("regions: every size against every size");
    for command in 0..CODES {
        for start in starts(command) {
            // All sizes at once make no more rows than a table has.
            let rows: Vec<Pair> = (0..ROW_CODES)
                .flat_map(|code| around(command, start, code))
                .collect();
            for (leaf, features) in [(0, ALL), (1, ALL), (0, ALL | E2H), (1, !0)] {
                scoped(checker, &rows, about(start, command, leaf), features);
                scoped(checker, &rows, (0x70, 0), features);
            }
        }
    }
    checker.phase("regions: a size against rows of each size alone");
    for command in 0..CODES {
        for start in starts(command) {
            for code in 0..ROW_CODES {
                for row in around(command, start, code) {
                    for leaf in 0..2 {
                        scoped(checker, &[row], about(start, command, leaf), ALL);
                    }
                }
            }
        }
    }
    checker.phase("regions: the same address in every size");
    for address in [0, MIDDLE, ADDRESS - size(0), MIDDLE + (size(7) - size(2))] {
        let rows: Vec<Pair> = (0..ROW_CODES)
            .flat_map(|code| [true, false].map(|last| region(code, last, address)))
            .collect();
        for command in 0..CODES {
            for leaf in 0..2 {
                // Once as it is, which may be unaligned, and once rounded to each size.
                scoped(checker, &rows, about(address, command, leaf), ALL);
                for code in 0..ROW_CODES {
                    let rounded = address / size(code) * size(code);
                    scoped(checker, &rows, about(rounded, command, leaf), ALL);
                }
            }
        }
    }
}

/// Where a command of the size may start: at both ends of the space and between. A
/// Reserved one has the largest size's places.
fn starts(command: u64) -> [u64; 4] {
    let size = size(command.min(ROW_CODES - 1));
    [0, MIDDLE, MIDDLE + size, ADDRESS - size]
}

/// Rows of the code: the first and the last one within the command's region, the ones
/// on both sides of it, and one that is larger and holds it.
fn around(command: u64, start: u64, code: u64) -> Vec<Pair> {
    let (size, own) = (size(command.min(ROW_CODES - 1)), size(code));
    let places = [
        Some(start),
        start.checked_sub(own),
        Some(start + size),
        (own < size).then(|| start + size - own),
        (own < size).then(|| start + size / 2),
    ];
    at(code, &places)
}
