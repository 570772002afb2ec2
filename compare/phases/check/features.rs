//! Each code under each combination of features, and bits that nobody looks at.

use super::samples::{around, batch, hall, own, FIT};
use super::{ask, bytes, call, Image, ALL};
use crate::checker::Checker;
use crate::generate::commands::{combinations, Command, E2H, KNOWN};

pub fn sweeps(checker: &mut Checker) {
    checker.phase("check: each code under every feature");
    for code in FIT {
        for features in combinations() {
            let image = Image {
                features,
                ..around(code, true)
            };
            let own = batch(&[code]);
            ask(checker, &image, &own, &[]);
            ask(checker, &image, &[], &own);
        }
    }
    checker.phase("check: identifiers too wide for the features");
    for features in combinations() {
        wide(checker, features);
    }
    checker.phase("check: every bit of the features");
    let image = hall();
    let (one, other) = (batch(&[0x05, 0x12, 0x22]), batch(&[0x06, 0x13, 0x23]));
    for features in [0, ALL, ALL | E2H] {
        for bit in 0..64 {
            let features = features ^ 1 << bit;
            let image = Image {
                features,
                ..image.clone()
            };
            let first = ask(checker, &image, &one, &other);
            let known = Image {
                features: features & KNOWN,
                ..image.clone()
            };
            let second = ask(checker, &known, &one, &other);
            let law = "a bit that is no feature changes a check";
            let call = call(&one, &other, features);
            checker.insist(
                first == second,
                law,
                &image.kept,
                call,
                (first, &image.kept),
            );
        }
    }
}

/// An upper bit of the ASID or of the VMID: legal, and without the feature after nothing.
fn wide(checker: &mut Checker, features: u64) {
    let image = Image { features, ..hall() };
    let spoilt = |code: u64, bit: u32| {
        let (low, high) = own(code);
        (low ^ 1 << bit, high)
    };
    let batches: [&[Command]; 5] = [
        &[spoilt(0x11, 56)],
        &[spoilt(0x12, 63), own(0x03)],
        &[spoilt(0x10, 40)],
        &[spoilt(0x21, 60), spoilt(0x22, 57)],
        &[own(0x03), spoilt(0x28, 47)],
    ];
    for commands in batches {
        let batch = bytes(commands);
        ask(checker, &image, &batch, &[]);
        ask(checker, &image, &bytes(&[own(0x03)]), &batch);
    }
}
