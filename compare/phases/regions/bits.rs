//! Which commands are legal: every feature, and every bit.

use super::rule::{reason, ADDRESS, LEAF, SIZE};
use super::{insist, taken, ALL, CODES, MIDDLE, SETTINGS};
use crate::call::RAISED;
use crate::checker::Checker;
use crate::generate::commands::{combinations, Command, DPT, KNOWN};
use crate::generate::regions::{about, region, Pair};
use crate::phases::reasons::bits::{changed, full};

pub fn sweeps(checker: &mut Checker) {
    checker.phase("regions: 70 and 73 under every feature");
    for features in combinations() {
        for command in [(0x70, 0), (0x73, 0), about(MIDDLE, 3, 1), (0x73, !0)] {
            one(checker, command, features);
            one(checker, command, features | !KNOWN);
        }
        // Beside a Reserved bit as well, since a missing feature comes first.
        one(checker, (0x70 | 1 << 8, 0), features);
        one(checker, (0x73 | 1 << 63, 0), features);
    }
    checker.phase("regions: each bit of 70 and 73");
    let bare = [(0x70, 0), (0x73, 0), full(0x70), full(0x73)];
    for command in bare.into_iter().chain(samples()) {
        each_bit(checker, command);
    }
    checker.phase("regions: codes beside 70 and 73");
    for code in 0x60..=0x7F {
        for high in [0, MIDDLE, MIDDLE | SIZE | LEAF, ADDRESS] {
            known(checker, (code, high));
        }
    }
}

/// Each size with Leaf and without.
fn samples() -> impl Iterator<Item = Command> {
    (0..CODES).flat_map(|code| [0, 1].map(|leaf| about(MIDDLE, code, leaf)))
}

fn each_bit(checker: &mut Checker, command: Command) {
    for features in SETTINGS.into_iter().chain([DPT, ALL ^ DPT, !DPT]) {
        one(checker, command, features);
        for bit in 8..128 {
            one(checker, changed(command, bit), features);
        }
    }
}

/// Rows that legal commands of each size take, at the place and at 0.
fn rows() -> Vec<Pair> {
    let row = |place: u64| move |code: u64| region(code, code % 2 == 0, place);
    let codes = [0, 1, 3, 6, 9];
    let middle = codes.map(row(MIDDLE));
    middle.into_iter().chain(codes.map(row(0))).collect()
}

const LAW: &str = "a command isn't legal, or isn't illegal for the reason, that T-11 has";

/// Raised for the reason, or carried out.
fn one(checker: &mut Checker, command: Command, features: u64) {
    let rows = rows();
    let (_, [end, _, _, _, _, told, ..]) = taken(checker, &rows, command, features);
    let met = match reason(command, features) {
        0 => end != RAISED,
        right => (end, told) == (RAISED, right),
    };
    insist(checker, met, LAW, &rows, (command, features));
}

/// Of the codes around them only the two are known.
fn known(checker: &mut Checker, command: Command) {
    let rows = rows();
    let (_, [end, _, _, _, _, told, ..]) = taken(checker, &rows, command, KNOWN);
    let met = match command.0 {
        0x70 | 0x73 => (end, told) != (RAISED, 1),
        _ => (end, told) == (RAISED, 1),
    };
    insist(checker, met, LAW, &rows, (command, KNOWN));
}
