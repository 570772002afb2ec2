//! Where commands and rows lie: alignment, every bit of an address, and the bits that
//! are treated as 0.

use super::{scoped, size, ALL, CODES, MIDDLE, ROW_CODES};
use crate::checker::Checker;
use crate::generate::regions::{about, region, Pair, SIZES};
use crate::limits::ADDRESS;

pub fn sweeps(checker: &mut Checker) {
    checker.phase("regions: addresses that are not aligned");
    for code in 0..ROW_CODES {
        for start in [0, MIDDLE, ADDRESS - size(code)] {
            unaligned(checker, code, start);
        }
    }
    checker.phase("regions: every bit of an address against every bit of a base");
    for code in 0..ROW_CODES {
        every_bit(checker, code);
    }
    checker.phase("regions: bits 55:52 of an address");
    for code in 0..CODES {
        above(checker, code);
    }
}

/// Every size at the start, and where the size would end.
fn rows(code: u64, start: u64) -> Vec<Pair> {
    let row = |own: u64| {
        let last = start + size(code) - size(own.min(code));
        [
            region(own, true, start),
            region(own, false, start),
            region(own, true, last),
        ]
    };
    (0..ROW_CODES).flat_map(row).collect()
}

/// Each bit between the pages and the size set by itself, and all of them.
fn unaligned(checker: &mut Checker, code: u64, start: u64) {
    let rows = rows(code, start);
    let each = (12..SIZES[code as usize]).map(|bit| 1 << bit);
    for beside in each.chain([0, size(code) - size(0)]) {
        for leaf in 0..2 {
            scoped(checker, &rows, about(start + beside, code, leaf), ALL);
            // A size for which it may be aligned.
            for other in 0..CODES {
                scoped(checker, &rows, about(start + beside, other, leaf), ALL);
            }
        }
    }
}

/// A row for each bit that a base of the size may have, and one at 0; a command of each
/// size for each bit.
fn every_bit(checker: &mut Checker, code: u64) {
    let bits = SIZES[code as usize]..52;
    let mut rows = vec![region(code, true, 0)];
    rows.extend(bits.map(|bit| region(code, bit % 2 == 0, 1 << bit)));
    for command in 0..CODES {
        scoped(checker, &rows, about(0, command, 0), ALL);
        for bit in 12..52 {
            scoped(checker, &rows, about(1 << bit, command, 0), ALL);
            scoped(checker, &rows, about(ADDRESS - (1 << bit), command, 0), ALL);
        }
    }
}

/// Whatever stands there, the command is legal and takes what it takes without.
fn above(checker: &mut Checker, command: u64) {
    let code = command.min(ROW_CODES - 1);
    for start in [0, MIDDLE, ADDRESS - size(code)] {
        let rows = rows(code, start);
        for above in 0..16 {
            for leaf in 0..2 {
                let address = start | above << 52;
                scoped(checker, &rows, about(address, command, leaf), ALL);
                let beside = address ^ 1 << 12;
                scoped(checker, &rows, about(beside, command, leaf), ALL);
            }
        }
    }
}
