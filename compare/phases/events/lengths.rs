//! Lengths of the recorder on both sides of each that is right.

use super::every_call;
use crate::checker::Checker;
use crate::generate::events::{record, ring};
use crate::generate::random::Random;
use crate::limits::{event_words, EVENTS};

/// What a length of 16 bits would lose.
const LOST: usize = 1 << 16;

pub fn sweeps(checker: &mut Checker) {
    let mut random = checker.phase("events: lengths of the recorder");
    for length in 0..=event_words(3) + 4 {
        each(checker, &mut random, length, &[0, 1, 2, 3, 4]);
    }
    for n in 4..=EVENTS + 2 {
        let right = event_words(n);
        for length in right - 5..=right + 5 {
            each(checker, &mut random, length, &[n - 1, n, n + 1]);
        }
        each(checker, &mut random, right + right / 2, &[n, n + 1]);
    }
    for n in [0, EVENTS] {
        each(checker, &mut random, event_words(n) + LOST, &[n]);
    }
}

/// The index word of an empty ring and of a full one for each n, and an ill-formed
/// one, so that no length is refused for another reason, or for one alone.
fn each(checker: &mut Checker, random: &mut Random, length: usize, sizes: &[u64]) {
    let record = record(random);
    let mut recorder = vec![0; length];
    let mut with = |word: u64| {
        if let Some(first) = recorder.first_mut() {
            *first = word;
        }
        every_call(checker, &recorder, &record);
    };
    for &n in sizes {
        with(ring(n, 1, 1 << n, 1).pack());
        with(ring(n, 0, 0, 0).pack());
    }
    with(1 << 63);
}
