//! Document 02's sentences about reasons, with the answers that they give; they
//! hold the model to the paper as well as the unit.

use super::{bytes, run, waiting};
use crate::checker::Checker;
use crate::generate::images::with_rows;
use crate::generate::rows::Words;
use crate::model::control::Control;
use crate::phases::cases::{expect, one};

const EMPTY_ROW: Words = [0; 4];
const ALL: u64 = 0b1111;
const NO_S1P: u64 = 0b1110;
const NO_S2P: u64 = 0b1101;

pub fn cases(checker: &mut Checker) {
    checker.phase("document 02's reasons");
    alone(checker);
    raised(checker);
}

/// T-09, a sentence a line: low word, features and reason.
fn alone(checker: &mut Checker) {
    let vmid = 1 << 32;
    for (low, features, reason) in [
        // Unknown, with Arm's codes that are left out; whatever else is wrong.
        (0x00, ALL, 1),
        (0x40, ALL, 1),
        (0x3440, 0, 1),
        // A feature that isn't there, before a Reserved bit.
        (0x05, NO_S1P, 2),
        (0x2A, NO_S2P, 2),
        (0x405, NO_S1P, 2),
        (0x405, ALL, 3),
        (0x28 | vmid, NO_S2P, 2),
        // Bit 10 of 01 and 02.
        (0x401, ALL, 3),
        (0x402, ALL, 3),
        // A VMID without S2P, on codes that want S1P.
        (0x10 | vmid, NO_S2P, 3),
        (0x11 | vmid, NO_S2P, 3),
        (0x12 | vmid, NO_S2P, 3),
        (0x13 | vmid, NO_S2P, 3),
        (0x10 | vmid, 0, 2),
        // A Reserved bit before CS 3.
        (0x3046, 0, 4),
        (0x3446, 0, 3),
    ] {
        let words = [3, 0, 1, 0, 0, reason, 0, 0];
        one(checker, &[EMPTY_ROW], (low, 0), features, &words);
    }
}

/// Two legal commands, one of them in the last slot, then the illegal one in slot
/// 1, where RD is 5. Behind it stands one that is illegal for another reason. The
/// run uncut; then cut before the store that raises, twice, and carried on; a run
/// that is held after it. Only Raised carries anything.
fn raised(checker: &mut Checker) {
    let control = Control {
        rd: 3,
        ..waiting(2, 7)
    };
    let queue = bytes(&[(0x30, 0), (0x3046, 0), (0, 0), (0x30, 0)]);
    let start = with_rows(control, &[EMPTY_ROW]);
    let uncut = run(&queue, ALL, u64::MAX);
    let words = [3, 2, 3, 0, 0, 4, 1, 0];
    expect(checker, &mut start.clone(), uncut, 0, &words);
    let mut kept = start;
    for (allowance, words) in [
        (2, [4, 2, 2, 0, 0, 0, 0, 0]),
        (0, [4, 0, 0, 0, 0, 0, 0, 0]),
        (1, [3, 0, 1, 0, 0, 4, 1, 0]),
        (1, [1, 0, 0, 0, 0, 0, 0, 0]),
    ] {
        expect(checker, &mut kept, run(&queue, ALL, allowance), 0, &words);
    }
}
