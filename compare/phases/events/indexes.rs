//! Index words on both sides of well formed.

use super::every_call;
use crate::checker::Checker;
use crate::generate::events::{memory, record, ring};
use crate::generate::random::Random;
use crate::limits::EVENTS;
use crate::model::events::Index;

pub fn sweeps(checker: &mut Checker) {
    let mut random = checker.phase("events: every single bit of the index word");
    for n in 0..=EVENTS {
        flips(checker, &mut random, n);
    }
    let mut random = checker.phase("events: every n in rings of every size");
    for n in 0..=EVENTS {
        sizes(checker, &mut random, n);
    }
    let mut random = checker.phase("events: RD and WR around their limits");
    for n in 0..=EVENTS {
        places(checker, &mut random, n);
    }
}

/// The calls on a recorder whose index word is exchanged for this one.
fn with(checker: &mut Checker, random: &mut Random, length: u64, word: u64) {
    let mut events = memory(random, ring(length, 0, 0, 0));
    events[0] = word;
    every_call(checker, &events, &record(random));
}

/// An empty ring, one that holds some, and a full one that is overflown.
fn flips(checker: &mut Checker, random: &mut Random, n: u64) {
    let slots = 1 << n;
    for index in [
        ring(n, 0, 0, 0),
        ring(n, slots, slots / 2, 2),
        ring(n, slots - 1, slots, 1),
    ] {
        for bit in 0..64 {
            with(checker, random, n, index.pack() ^ 1 << bit);
        }
    }
}

/// Whatever n the word holds, with indexes that its own n would take.
fn sizes(checker: &mut Checker, random: &mut Random, length: u64) {
    for n in 0..32 {
        let small = ring(length.min(n), 0, 0, 1);
        let full = ring(length.min(n), 1, 1 << length.min(n), 0);
        for index in [small, full] {
            with(checker, random, length, Index { n, ..index }.pack());
        }
    }
}

/// Indexes at the ends of the ring and just outside, every pair of them; the same
/// with a bit that the ring has no room for.
fn places(checker: &mut Checker, random: &mut Random, n: u64) {
    let (slots, end) = (1u64 << n, 2u64 << n);
    let mut near = vec![0, 1, slots - 1, slots, slots + 1, end - 1, end, end + 1];
    if n == 2 {
        near = (0..=end + 1).collect();
    }
    near.sort();
    near.dedup();
    for (&rd, &wr) in near
        .iter()
        .flat_map(|rd| near.iter().map(move |wr| (rd, wr)))
    {
        for flags in [0, 1] {
            let index = ring(n, 0, 0, flags);
            with(checker, random, n, Index { rd, wr, ..index }.pack());
        }
    }
    for bit in n + 1..20 {
        let high = 1 << bit;
        for (rd, wr) in [(high, 0), (0, high), (high, high)] {
            let index = ring(n, 0, 0, 1);
            with(checker, random, n, Index { rd, wr, ..index }.pack());
        }
    }
}
