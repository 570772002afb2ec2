//! Every combination of the features: 20 before 21, and what is legal without one.

use super::{gives, one, ALL};
use crate::checker::Checker;
use crate::generate::commands::{combinations, CODES, DPT, E2H, HYP, RIL};
use crate::generate::fields::{full, own, with, NONE};
use crate::model::fields::*;

const S1P: u64 = 1;
const S2P: u64 = 1 << 1;
const ASID16: u64 = 1 << 2;
const VMID16: u64 = 1 << 3;

pub fn sweeps(checker: &mut Checker) {
    checker.phase("writer: every code under every feature");
    for code in CODES {
        for features in combinations() {
            for setting in [0, 1 << 8, 1 << 63] {
                under(checker, code, features | setting);
            }
        }
    }
    checker.phase("writer: every bit of the features");
    for code in CODES {
        for features in [0, ALL] {
            for bit in 0..64 {
                one(checker, &full(code), features ^ 1 << bit);
                one(checker, &with(code, &[]), features ^ 1 << bit);
            }
        }
    }
    checker.phase("writer: wide ASIDs and VMIDs, whatever the features");
    for code in CODES {
        wide(checker, code);
    }
}

/// What a code can't do without.
fn wanted(code: u64) -> u64 {
    match code {
        0x05 | 0x06 | 0x10..=0x13 => S1P,
        0x20..=0x23 => S1P | HYP,
        0x28 | 0x2A => S2P,
        0x70 | 0x73 => DPT,
        _ => 0,
    }
}

/// Bare, with every field, and with something wrong: a field too wide, one that isn't
/// its own, the word that is none.
fn under(checker: &mut Checker, code: u64, features: u64) {
    let missing = features & wanted(code) != wanted(code);
    let number = |other: u64| if missing { 20 } else { other };
    gives(checker, &with(code, &[]), features, number(0));
    let full = full(code);
    let ranged = full[TG] != 0 && features & RIL == 0;
    let vmid = full[VMID] != 0 && features & S2P == 0;
    let illegal = if ranged || vmid { 21 } else { 0 };
    gives(checker, &full, features, number(illegal));
    for (field, value) in [(NONE, 1), (CS, 3), (VMID, 1 << 16), (SIZE, u64::MAX)] {
        let mut fields = full;
        fields[field] = value;
        gives(checker, &fields, features, number(21));
    }
    gives(
        checker,
        &with(code, &[(RANGE, 32), (LEAF, 2)]),
        features,
        number(21),
    );
    for &field in own(code) {
        one(checker, &with(code, &[(field, 1)]), features);
    }
    // A known code but for a bit above: no feature is missing.
    gives(checker, &with(code | 1 << 8, &[]), features, 21);
}

/// More than eight bits of either are written without ASID16 and VMID16; only without
/// S2P a VMID is none.
fn wide(checker: &mut Checker, code: u64) {
    let values = [0, 1, 0xFF, 0x100, 0x8000, 0xFF00, 0xFFFF, 0x1_0000];
    let fields = own(code)
        .iter()
        .filter(|&&field| field == VMID || field == ASID);
    for &field in fields {
        for value in values {
            for widths in [0, ASID16, VMID16, ASID16 | VMID16] {
                for others in [0, S2P, RIL, E2H, S2P | RIL | DPT | HYP] {
                    let features = wanted(code) | widths | others;
                    let known = field == ASID || value == 0 || features & S2P != 0;
                    let number = if known && value <= 0xFFFF { 0 } else { 21 };
                    gives(checker, &with(code, &[(field, value)]), features, number);
                    one(
                        checker,
                        &with(code, &[(field, value)]),
                        features & !S1P & !S2P,
                    );
                }
            }
        }
    }
}
