//! Each code of an invalidation at each place of a batch, with its row there and without.

use super::samples::{around, idle, own, row, FIT};
use super::{bytes, related, says};
use crate::call::{DIFFERS, YES};
use crate::checker::Checker;
use crate::generate::commands::Command;

pub fn sweeps(checker: &mut Checker) {
    checker.phase("check: each code at each place of a batch");
    for code in FIT {
        for there in [true, false] {
            for count in [1, 2, 3, 5] {
                (0..count).for_each(|place| at(checker, code, there, place, count));
            }
        }
    }
    checker.phase("check: each code against each other");
    for code in FIT {
        FIT.iter().for_each(|&other| against(checker, code, other));
    }
}

/// The code's own command among those that take nothing, against a batch without it, and
/// against one with it alone.
fn at(checker: &mut Checker, code: u64, there: bool, place: usize, count: usize) {
    let image = around(code, there);
    // 20 and 30 have no fields, and 03 is legal under any features.
    let mut commands: Vec<Command> = (0..count)
        .map(|number| idle([0x03, 0x2A, 0x73, 0x05][number % 4]))
        .collect();
    let without = bytes(&commands);
    commands[place] = own(code);
    let with = bytes(&commands);
    let alone = bytes(&[own(code)]);
    let region = if row(code).is_none() { 4 } else { 1 };
    let differs = match there {
        true => [DIFFERS, region, 0],
        false => [YES, 0, 0],
    };
    says(checker, &image, [&with, &without], differs);
    says(checker, &image, [&without, &with], differs);
    says(checker, &image, [&with, &alone], [YES, 0, 0]);
    says(checker, &image, [&alone, &with], [YES, 0, 0]);
    says(checker, &image, [&with, &[]], differs);
    says(checker, &image, [&[], &with], differs);
    let spoilt = bytes(&[idle(code)]);
    related(checker, &image, &with, &spoilt);
}

/// Two codes over the row of the first.
fn against(checker: &mut Checker, code: u64, other: u64) {
    let image = around(code, true);
    let (one, two) = (bytes(&[own(code)]), bytes(&[own(other)]));
    let both = bytes(&[own(other), own(code)]);
    related(checker, &image, &one, &two);
    related(checker, &image, &both, &one);
    related(checker, &image, &both, &two);
    let twice = [&both[..], &both].concat();
    says(checker, &image, [&both, &twice], [YES, 0, 0]);
    says(checker, &image, [&twice, &both], [YES, 0, 0]);
}
