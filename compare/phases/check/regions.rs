//! Regions of the second table taken one by one, and by one command for a larger size.

use super::samples::control;
use super::{bytes, related, says, Image, ALL};
use crate::call::{DIFFERS, YES};
use crate::checker::Checker;
use crate::generate::commands::Command;
use crate::generate::images::with_rows;
use crate::generate::regions::{about, region, with_regions, Pair, SIZES};

pub fn sweeps(checker: &mut Checker) {
    checker.phase("check: regions merged into larger ones");
    for code in 0..SIZES.len() as u64 - 1 {
        regions(checker, code);
    }
}

/// The regions of one size that fill one of the next, by one command each or by one for
/// all.
fn regions(checker: &mut Checker, code: u64) {
    let (size, next) = (
        1u64 << SIZES[code as usize],
        1u64 << SIZES[code as usize + 1],
    );
    let start = 1u64 << 45;
    let count = (next / size).min(32);
    let at = |number: u64| start + number * size;
    let own = |number: u64| region(code, number % 3 != 1, at(number));
    let mut rows: Vec<Pair> = (0..count).map(own).collect();
    rows.push(region(code, true, start + next));
    rows.push(region(code + 1, false, start));
    let image = Image {
        kept: with_rows(control(code), &[[0; 4]; 2]),
        table: with_regions(&rows),
        features: ALL,
    };
    let mut singles: Vec<Command> = (0..count).map(|n| about(at(n), code, 0)).collect();
    let larger = bytes(&[about(start, code + 1, 0)]);
    let last = 2 + count + 1;
    says(
        checker,
        &image,
        [&bytes(&singles), &larger],
        [DIFFERS, last, 0],
    );
    singles.push(about(start, code + 1, 0));
    says(checker, &image, [&bytes(&singles), &larger], [YES, 0, 0]);
    let spared = bytes(&[about(start, code + 1, 1)]);
    related(checker, &image, &larger, &spared);
    let further = bytes(&[about(start + next, code + 1, 0)]);
    related(checker, &image, &larger, &further);
    let unaligned = bytes(&[about(start + size, code + 1, 0)]);
    says(checker, &image, [&unaligned, &[]], [YES, 0, 0]);
    related(checker, &image, &larger, &bytes(&[(0x70, 0)]));
}
