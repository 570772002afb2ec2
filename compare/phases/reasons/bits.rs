//! One command alone: every bit of it, and several faults at once.

use super::{bytes, run, waiting};
use crate::checker::Checker;
use crate::generate::commands::{Command, CODES, HYP_CODES, KNOWN};
use crate::generate::images::with_rows;
use crate::model::command::{decode, Features};

const CS_3: u64 = 3 << 12;

pub fn sweeps(checker: &mut Checker) {
    checker.phase("reasons: each bit changed in bare and in full commands");
    // Those of T-05 have more features, and a phase of their own; so have those of T-11,
    // which are illegal without theirs.
    for code in CODES.into_iter().filter(|code| !HYP_CODES.contains(code)) {
        each_bit(checker, (code, 0));
        each_bit(checker, full(code));
    }
    // Alone it is the bad parameter; beside a Reserved bit it is none.
    each_bit(checker, (0x46 | CS_3, 0));
    checker.phase("reasons: unknown codes with other faults");
    unknown(checker);
}

fn alone(checker: &mut Checker, command: Command, features: u64) {
    let mut kept = with_rows(waiting(0, 1), &[[0; 4]]);
    checker.call(&mut kept, run(&bytes(&[command]), features, u64::MAX));
}

pub fn changed((low, high): Command, bit: u64) -> Command {
    if bit < 64 {
        (low ^ 1 << bit, high)
    } else {
        (low, high ^ 1 << (bit - 64))
    }
}

/// Every bit that is legal by itself under all features. With all of them ASID
/// and VMID are too wide for a unit of eight bits, and CS of code 46 is 3.
pub fn full(code: u64) -> Command {
    let bare = (code, 0);
    let mut full = bare;
    for bit in 8..128 {
        let (low, high) = changed(bare, bit);
        if decode(low, high, Features::from_bits(KNOWN)).is_ok() {
            full = changed(full, bit);
        }
    }
    full
}

/// The command as it is, and with each bit above the code changed, under every
/// feature: a bit may be Reserved under some, and under others the code's own
/// feature is absent, which comes first.
fn each_bit(checker: &mut Checker, command: Command) {
    for features in 0..16 {
        alone(checker, command, features);
        for bit in 8..128 {
            alone(checker, changed(command, bit), features);
        }
    }
}

/// Codes that nobody has or that the papers leave out, with bits that are Reserved
/// or a bad parameter in the codes that they have.
fn unknown(checker: &mut Checker) {
    for code in (0..256).filter(|code| !CODES.contains(code)) {
        let faults = [
            (code | CS_3, 0),
            (code | 1 << 10, 0),
            (code | 1 << 47, 0),
            (code, 1 << 63),
            (code | !0xFF, u64::MAX),
        ];
        for command in faults {
            alone(checker, command, 0);
            alone(checker, command, KNOWN);
        }
    }
}
