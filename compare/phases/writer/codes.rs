//! Every code: what it has no field for, and those that are no commands.

use super::{gives, one, ALL, SETTINGS};
use crate::checker::Checker;
use crate::generate::commands::CODES;
use crate::generate::fields::{self, full, own, with, NONE};
use crate::model::fields::CODE;

pub fn sweeps(checker: &mut Checker) {
    checker.phase("writer: every code with its fields and without");
    for code in CODES {
        for features in SETTINGS {
            gives(checker, &full(code), features, 0);
            gives(checker, &with(code, &[]), features, 0);
        }
    }
    checker.phase("writer: codes that are none");
    unknown(checker);
    checker.phase("writer: every field that a command doesn't have");
    for code in CODES {
        foreign(checker, code);
    }
}

/// Every code of eight bits, and those that are a command once bits are lost.
fn unknown(checker: &mut Checker) {
    for code in 0..0x200 {
        let number = if CODES.contains(&code) { 0 } else { 21 };
        for features in SETTINGS {
            gives(checker, &with(code, &[]), features, number);
        }
        // Without a feature there is none that an unknown code could miss.
        one(checker, &with(code, &[]), 0);
    }
    for code in CODES {
        for bit in 8..64 {
            for features in [0, ALL] {
                let mut fields = full(code);
                fields[CODE] |= 1 << bit;
                gives(checker, &fields, features, 21);
                gives(checker, &with(code | 1 << bit, &[]), features, 21);
            }
        }
        gives(checker, &with(code | u64::MAX << 8, &[]), ALL, 21);
    }
    gives(checker, &[u64::MAX; 16], !0, 21);
    gives(checker, &[0; 16], !0, 21);
}

/// Each field that isn't the code's, and the word that is none: whatever it is, the
/// command is refused.
fn foreign(checker: &mut Checker, code: u64) {
    for field in fields::ALL.filter(|field| !own(code).contains(field)) {
        for bare in [full(code), with(code, &[])] {
            for bit in 0..64 {
                let mut fields = bare;
                fields[field] = 1 << bit;
                gives(checker, &fields, ALL, 21);
            }
            for value in [3, 5, u64::MAX, u64::MAX << 12, u64::MAX << 32] {
                let mut fields = bare;
                fields[field] = value;
                gives(checker, &fields, !0, 21);
            }
        }
    }
    // Two at once that would cancel each other if they were added.
    let mut fields = full(code);
    fields[NONE] = u64::MAX;
    fields[NONE - 1] = fields[NONE - 1].wrapping_add(1);
    gives(checker, &fields, ALL, 21);
}
