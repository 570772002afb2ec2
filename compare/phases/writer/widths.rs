//! Each field of each command at its ends and on both sides of its width.

use super::{gives, one, ALL};
use crate::checker::Checker;
use crate::generate::commands::{CODES, RANGED, RIL};
use crate::generate::fields::{full, largest, own, width, with};
use crate::model::fields::*;

pub fn sweeps(checker: &mut Checker) {
    checker.phase("writer: each field at its ends and one too wide");
    for code in CODES {
        for &field in own(code) {
            ends(checker, code, field);
        }
    }
    checker.phase("writer: every bit of every field");
    for code in CODES {
        for &field in own(code) {
            bits(checker, code, field);
        }
    }
    checker.phase("writer: every field at its largest, and one of them wider");
    for code in CODES {
        together(checker, code);
    }
}

/// Whether it is a field of a range, which isn't legal in any company.
fn ranged(field: usize) -> bool {
    (NUM..=TTL128).contains(&field)
}

/// Alone and among the others, 0, 1, the largest, one more, twice that and all ones. CS
/// has a largest value that is illegal, and a range hangs on its other fields.
fn ends(checker: &mut Checker, code: u64, field: usize) {
    let largest = largest(code, field);
    for bare in [full(code), with(code, &[])] {
        for value in [0, 1, largest / 2, largest - 1, largest] {
            let mut fields = bare;
            fields[field] = value;
            match (field, value) {
                (CS, 3) => gives(checker, &fields, ALL, 21),
                _ if ranged(field) => drop(one(checker, &fields, ALL)),
                _ => gives(checker, &fields, ALL, 0),
            }
        }
        for value in [
            largest + 1,
            largest + 2,
            2 * largest + 2,
            1 << 52,
            1 << 63,
            u64::MAX - largest,
            u64::MAX,
        ] {
            let mut fields = bare;
            fields[field] = value;
            gives(checker, &fields, ALL, 21);
            gives(checker, &fields, !0, 21);
        }
    }
}

/// One bit alone: written at its place and nowhere else if it is the field's.
fn bits(checker: &mut Checker, code: u64, field: usize) {
    for bit in 0..64 {
        let mut fields = with(code, &[(field, 1 << bit)]);
        if RANGED.contains(&code) && ranged(field) {
            fields[TG] |= 1;
            fields[TTL] |= 2;
            let fits = bit < width(code, field);
            gives(checker, &fields, ALL, if fits { 0 } else { 21 });
            gives(checker, &fields, ALL & !RIL, 21);
            continue;
        }
        let fits = bit < width(code, field);
        gives(checker, &fields, ALL, if fits { 0 } else { 21 });
        let mut fields = full(code);
        fields[field] ^= 1 << bit;
        one(checker, &fields, ALL);
    }
}

/// All of them at once, so that what is too wide would run into the next.
fn together(checker: &mut Checker, code: u64) {
    let mut widest = with(code, &[]);
    for &field in own(code) {
        widest[field] = largest(code, field);
    }
    if code == 0x46 {
        widest[CS] = 2;
    }
    gives(checker, &widest, ALL, 0);
    for &field in own(code) {
        let mut fields = widest;
        fields[field] += 1 << width(code, field);
        gives(checker, &fields, ALL, 21);
        fields[field] = 1 << width(code, field);
        gives(checker, &fields, ALL, 21);
    }
}
