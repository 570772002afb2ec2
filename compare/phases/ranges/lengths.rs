//! Ranges of every length, up to the largest, and those that reach the end of the
//! 64-bit space or pass it.

use super::{from, own, scoped, ASKED, VALUES};
use crate::checker::Checker;
use crate::generate::ranges::{Range, GRANULES};
use crate::generate::rows::Words;
use crate::limits::{ADDRESS, SPANS, UPPER};

const PAGE: u64 = 0x1000;

pub fn sweeps(checker: &mut Checker) {
    checker.phase("ranges: of every length, between the pages at their ends");
    for number in 0..VALUES * VALUES {
        for tg in 1..4 {
            let range = Range::new(tg, number % VALUES, number / VALUES);
            for (code, features) in ASKED {
                between(checker, (code, features), range);
            }
        }
    }
    checker.phase("ranges: at the end of the 64-bit space, and of stage 2");
    for (code, features) in ASKED {
        let top = if code == 0x2A { ADDRESS } else { 0 };
        let rows = at_ends(code, features, top);
        for tg in 1..4 {
            for (num, scale) in [(0, 0), (1, 0), (15, 0), (31, 0), (0, 9), (31, 20), (31, 31)] {
                passing(
                    checker,
                    &rows,
                    (code, features),
                    top,
                    Range::new(tg, num, scale),
                );
            }
        }
    }
    checker.phase("ranges: from addresses that no row has");
    for (code, features) in ASKED {
        let rows = at_ends(code, features, UPPER);
        let others = at_ends(code, features, ADDRESS);
        for tg in 1..4 {
            for scale in 0..VALUES {
                let range = Range::new(tg, 31, scale);
                for start in between_halves(range) {
                    let command = range.over(from(code, start));
                    scoped(checker, &rows, command, features);
                    scoped(checker, &others, command, features);
                }
            }
        }
    }
}

/// The first and the last page, and those just outside, as far as there are rows;
/// from a low address on, to the end of either half, and from the start of the upper.
fn between(checker: &mut Checker, (code, features): (u64, u64), range: Range) {
    let bytes = range.bytes();
    let granule = 1u64 << GRANULES[range.tg as usize];
    for start in [0x40_0000, ADDRESS - bytes, UPPER, bytes.wrapping_neg()] {
        let start = start / granule * granule;
        let end = start.wrapping_add(bytes);
        let pages = [start.wrapping_sub(PAGE), start, end.wrapping_sub(PAGE), end];
        let rows: Vec<Words> = pages
            .into_iter()
            .filter_map(|page| own(code, features, 12, page, true))
            .collect();
        if !rows.is_empty() {
            scoped(checker, &rows, range.over(from(code, start)), features);
        }
    }
}

/// Rows of every span below a place and at it, and at the other end of the space.
fn at_ends(code: u64, features: u64, place: u64) -> Vec<Words> {
    let mut rows = Vec::new();
    for span in SPANS {
        for input in [place.wrapping_sub(1 << span), place, 0, 1 << span] {
            rows.extend(own(code, features, span, input, span % 2 == 0));
        }
    }
    rows
}

/// Ranges that end at the top, one granule before it and behind it; and from each of
/// the last pages on, whatever their length.
fn passing(
    checker: &mut Checker,
    rows: &[Words],
    (code, features): (u64, u64),
    top: u64,
    range: Range,
) {
    let granule = 1i64 << GRANULES[range.tg as usize];
    let whole = top.wrapping_sub(range.bytes());
    let near = [-1, 0, 1].map(|away| whole.wrapping_add_signed(away * granule));
    let last = (1..40).map(|page| top.wrapping_sub(page * PAGE));
    let blocks = SPANS.map(|span| top.wrapping_sub(1 << span));
    for start in near.into_iter().chain(last).chain(blocks) {
        let command = range.over(from(code, start));
        scoped(checker, rows, command, features);
    }
}

/// Starts between the halves, so that the range ends before the upper one, at its
/// start and behind; in the lower half so that it passes the end of that; and far
/// from both.
fn between_halves(range: Range) -> [u64; 9] {
    let granule = 1u64 << GRANULES[range.tg as usize];
    let below = UPPER.wrapping_sub(range.bytes());
    [
        below - granule,
        below,
        below + granule,
        UPPER - granule,
        ADDRESS - granule,
        ADDRESS,
        ADDRESS + granule,
        1 << 62,
        1 << 63,
    ]
}
