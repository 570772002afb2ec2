//! Ranges that start and end at, before and behind the edges of rows of every span.

use super::{from, own, scoped, ASKED};
use crate::checker::Checker;
use crate::generate::ranges::{Range, GRANULES};
use crate::generate::rows::Words;
use crate::limits::{ADDRESS, SPANS, UPPER};

/// NUM and SCALE of ranges that are short, long, and of one granule.
const LENGTHS: [(u64, u64); 11] = [
    (0, 0),
    (1, 0),
    (2, 0),
    (31, 0),
    (0, 1),
    (6, 3),
    (0, 9),
    (31, 9),
    (2, 20),
    (0, 31),
    (31, 31),
];

/// Multiples of every span, around which rows stand: within either half, and at
/// their ends, which for 0 is also that of the 64-bit space.
const AROUND: [u64; 6] = [
    0,
    ADDRESS / 2,
    ADDRESS,
    UPPER,
    UPPER + ADDRESS / 4,
    UPPER + ADDRESS / 2,
];

pub fn sweeps(checker: &mut Checker) {
    checker.phase("ranges: at the edges of rows of every span");
    for (code, features) in ASKED {
        for edge in AROUND {
            let rows = rows(code, features, edge);
            for tg in 1..4 {
                for (num, scale) in LENGTHS {
                    around(
                        checker,
                        &rows,
                        (code, features),
                        edge,
                        Range::new(tg, num, scale),
                    );
                }
            }
        }
    }
    checker.phase("ranges: from each page of a granule");
    for (code, features) in ASKED {
        for edge in [ADDRESS / 2, UPPER + ADDRESS / 4, 0] {
            for tg in 1..4 {
                rounded(checker, (code, features), edge, tg);
            }
        }
    }
}

/// Rows of every span that end at the edge and that begin there, of either level.
fn rows(code: u64, features: u64, edge: u64) -> Vec<Words> {
    let mut rows = Vec::new();
    for span in SPANS {
        for (input, last) in [
            (edge.wrapping_sub(1 << span), span % 2 == 0),
            (edge, span % 3 != 0),
        ] {
            rows.extend(own(code, features, span, input, last));
        }
    }
    rows
}

/// The range from the edge on and up to it; one granule further, and two, either way.
fn around(
    checker: &mut Checker,
    rows: &[Words],
    (code, features): (u64, u64),
    edge: u64,
    range: Range,
) {
    let granule = 1 << GRANULES[range.tg as usize];
    for start in [edge, edge.wrapping_sub(range.bytes())] {
        for away in [-2i64, -1, 0, 1, 2] {
            let start = start.wrapping_add_signed(away * granule);
            let (low, high) = range.over(from(code, start));
            scoped(checker, rows, (low, high), features);
            scoped(checker, rows, (low, high | 1), features);
        }
    }
}

/// Short ranges from every page of a granule, over the pages and small blocks from
/// two granules before it to two behind the range.
fn rounded(checker: &mut Checker, (code, features): (u64, u64), edge: u64, tg: u64) {
    let granule = 1u64 << GRANULES[tg as usize];
    for (num, scale) in [(0, 0), (1, 0), (0, 1), (2, 0)] {
        let range = Range::new(tg, num, scale);
        let area = (range.bytes() + 4 * granule) >> 12;
        let first = edge.wrapping_sub(2 * granule);
        let mut rows: Vec<Words> = Vec::new();
        for page in (0..area).map(|page| first.wrapping_add(page << 12)) {
            rows.extend(own(code, features, 12, page, true));
            let span = page.trailing_zeros().clamp(12, 18).into();
            rows.extend(own(code, features, span, page, false));
        }
        for page in (0..granule).step_by(0x1000) {
            let command = range.over(from(code, edge.wrapping_add(page)));
            scoped(checker, &rows, command, features);
        }
    }
}
