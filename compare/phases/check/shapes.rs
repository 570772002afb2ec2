//! Batches that are empty, equal, permuted, repeated, or have a command left out.

use super::samples::{batch, hall, own, FIT};
use super::{bytes, related, says, Image};
use crate::call::YES;
use crate::checker::Checker;
use crate::generate::commands::Command;
use crate::generate::images::shuffle;
use crate::generate::random::Random;

const SAME: [u64; 3] = [YES, 0, 0];

pub fn sweeps(checker: &mut Checker) {
    let mut random = checker.phase("check: batches that are empty, equal, permuted and repeated");
    let image = hall();
    says(checker, &image, [&[], &[]], SAME);
    let whole = batch(&FIT);
    says(checker, &image, [&whole, &whole], SAME);
    for first in 0..FIT.len() {
        let some = [&FIT[first..], &FIT[..first]].concat();
        alike(
            checker,
            &mut random,
            &image,
            &some[..1 + first % some.len()],
        );
    }
    for _ in 0..60 {
        let count = random.between(0, 20);
        let some: Vec<u64> = (0..count).map(|_| random.pick(&FIT)).collect();
        alike(checker, &mut random, &image, &some);
    }
    checker.phase("check: one command left out, or one more");
    for code in FIT {
        left_out(checker, &image, code);
    }
}

/// The same commands as often or more often, in the same order or another.
fn alike(checker: &mut Checker, random: &mut Random, image: &Image, codes: &[u64]) {
    let original = batch(codes);
    let backward: Vec<u64> = codes.iter().rev().copied().collect();
    let mut shuffled = codes.to_vec();
    shuffle(random, &mut shuffled);
    let repeated: Vec<u64> = codes.iter().flat_map(|&code| [code, code]).collect();
    let again = codes.iter().take(1).chain(codes).copied().collect();
    let thrice = [codes, &backward, codes].concat();
    for other in [backward, shuffled, repeated, again, thrice] {
        let other = batch(&other);
        says(checker, image, [&original, &other], SAME);
        says(checker, image, [&other, &original], SAME);
    }
    let mut fewer = codes.to_vec();
    fewer.sort();
    fewer.dedup();
    says(checker, image, [&original, &batch(&fewer)], SAME);
    says(checker, image, [&original, &original.clone()], SAME);
}

/// All codes but one, at either end; each code with another one beside it.
fn left_out(checker: &mut Checker, image: &Image, code: u64) {
    let others: Vec<u64> = FIT.into_iter().filter(|&other| other != code).collect();
    let (whole, without) = (batch(&FIT), batch(&others));
    related(checker, image, &whole, &without);
    related(checker, image, &without, &whole);
    let few: Vec<Command> = others
        .iter()
        .filter(|&&other| other % 3 == code % 3)
        .map(|&other| own(other))
        .collect();
    let (few, more) = (bytes(&few), bytes(&[&few[..], &[own(code)]].concat()));
    related(checker, image, &few, &more);
    related(checker, image, &more, &few);
}
