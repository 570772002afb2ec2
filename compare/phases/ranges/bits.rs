//! Which commands are legal: every combination of the fields, and every bit beside
//! them.

use super::rule::reason;
use super::{from, own, ALL, SETTINGS};
use super::{insist, taken, VALUES};
use crate::call::RAISED;
use crate::checker::Checker;
use crate::generate::commands::{combinations, Command, KNOWN, RANGED, RIL};
use crate::generate::ranges::Range;
use crate::generate::rows::Words;
use crate::phases::reasons::bits::{changed, full};

/// Where the commands start.
const START: u64 = 0x20_0000;

pub fn sweeps(checker: &mut Checker) {
    checker.phase("ranges: every combination of the fields under every feature");
    for code in RANGED {
        for range in combined(&[0, 1]) {
            for features in combinations() {
                one(checker, range.over(from(code, START)), features);
            }
        }
    }
    checker.phase("ranges: every combination of the fields, with each bit of NUM and SCALE");
    for code in RANGED {
        for range in combined(&[0, 1, 2, 4, 8, 16, VALUES - 1]) {
            for features in [ALL, ALL ^ RIL] {
                one(checker, range.over(from(code, START)), features);
            }
        }
    }
    checker.phase("ranges: every value of NUM and SCALE");
    for (code, tg) in RANGED
        .into_iter()
        .flat_map(|code| (0..4).map(move |tg| (code, tg)))
    {
        for number in 0..VALUES * VALUES {
            let (num, scale) = (number % VALUES, number / VALUES);
            for ttl in 0..4 {
                let ttl128 = 0;
                let range = Range {
                    num,
                    scale,
                    tg,
                    ttl,
                    ttl128,
                };
                one(checker, range.over(from(code, START)), KNOWN);
            }
        }
    }
    checker.phase("ranges: each bit of commands that have one");
    for code in RANGED {
        for range in samples() {
            each_bit(checker, range.over(from(code, START)));
            each_bit(checker, range.over(full(code)));
            each_bit(checker, range.over((code, 0)));
        }
    }
}

/// Every TG, TTL and TTL128 with each of the values for NUM and for SCALE.
fn combined(values: &[u64]) -> Vec<Range> {
    let pairs = values
        .iter()
        .flat_map(|num| values.iter().map(move |scale| (num, scale)));
    let with = |(&num, &scale): (&u64, &u64)| {
        (0..32).map(move |bits| Range {
            num,
            scale,
            tg: bits >> 3,
            ttl: bits >> 1 & 3,
            ttl128: bits & 1,
        })
    };
    pairs.flat_map(with).collect()
}

/// For each TG a range with a level and without, a level alone, and neither; both of
/// them with TTL128.
fn samples() -> Vec<Range> {
    let mut samples = Vec::new();
    for tg in 1..4 {
        for (num, scale, ttl, ttl128) in [
            (5, 2, 0, 0),
            (0, 3, 2, 0),
            (7, 0, 3, 1),
            (0, 0, 2, 0),
            (0, 0, 1, 1),
            (0, 0, 0, 0),
            (1, 0, 0, 1),
            (31, 31, 3, 1),
        ] {
            samples.push(Range {
                num,
                scale,
                tg,
                ttl,
                ttl128,
            });
        }
    }
    samples
}

fn each_bit(checker: &mut Checker, command: Command) {
    for features in SETTINGS.into_iter().chain([ALL ^ RIL]) {
        one(checker, command, features);
        for bit in 8..128 {
            one(checker, changed(command, bit), features);
        }
    }
}

/// Rows at the start, which legal commands take, and behind the last granule.
fn rows(code: u64, features: u64) -> Vec<Words> {
    let places = [
        (12, START),
        (12, START + 0x1000),
        (16, START),
        (12, START + 0x1_0000),
    ];
    let row = |(span, input)| own(code, features, span, input, true);
    places.into_iter().filter_map(row).collect()
}

const LAW: &str = "a command isn't legal, or isn't illegal for the reason, that T-07 has";

/// Raised for the reason, or carried out.
fn one(checker: &mut Checker, command: Command, features: u64) {
    let rows = rows(command.0 & 0xFF, features);
    let (_, [end, _, _, _, _, told, ..]) = taken(checker, &rows, command, features);
    let met = match reason(command, features) {
        0 => end != RAISED,
        right => (end, told) == (RAISED, right),
    };
    insist(checker, met, LAW, &rows, (command, features));
}
