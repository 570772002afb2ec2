//! Writes cut after any number of stores, and what is called then.

use super::write;
use crate::call::{Call, Reply, WRITE_CUT};
use crate::checker::Checker;
use crate::generate::events::{any_ring, memory, record, rings};
use crate::generate::random::Random;
use crate::limits::{event_words, EVENTS};

pub fn sweeps(checker: &mut Checker) {
    let mut random = checker.phase("events: a write cut at every store");
    for index in (0..=EVENTS).flat_map(rings) {
        let events = memory(&mut random, index);
        let record = record(&mut random);
        every_cut(checker, &events, &record);
    }
    let mut random = checker.phase("events: chains of cuts");
    for _ in 0..1_000 {
        chain(checker, &mut random);
    }
    let mut random = checker.phase("events: other calls after a cut");
    for _ in 0..300 {
        onward(checker, &mut random);
    }
}

const SINGLE: &str = "one store more isn't one word more";
const SAME: &str = "a cut write called again isn't the uncut write";
const HIDDEN: &str = "a cut write shows after another call";

/// The write at each allowance that cuts it, and then called to its end.
fn every_cut(checker: &mut Checker, events: &[u64], record: &[u8; 32]) {
    let mut whole = events.to_vec();
    let uncut = checker.call(&mut whole, write(record, u64::MAX));
    let mut previous = events.to_vec();
    for allowance in 0..=uncut.answer[1] {
        let mut kept = events.to_vec();
        let call = write(record, allowance);
        let first = checker.call(&mut kept, call);
        let single = changed(&previous, &kept) == allowance.min(1);
        checker.insist(single, SINGLE, events, call, (first, &kept));
        previous.clone_from(&kept);
        let last = if first.answer[0] == WRITE_CUT {
            checker.call(&mut kept, write(record, u64::MAX))
        } else {
            first
        };
        let equal = kept == whole && last == uncut;
        checker.insist(equal, SAME, events, call, (last, &kept));
    }
}

fn changed(before: &[u64], after: &[u64]) -> u64 {
    let pairs = before.iter().zip(after);
    pairs.filter(|(then, now)| then != now).count() as u64
}

/// A write cut again and again until it isn't. The last call's answer is the uncut
/// one's, since each begins with the first word.
fn chain(checker: &mut Checker, random: &mut Random) {
    let events = start(random);
    let record = record(random);
    let mut whole = events.clone();
    let uncut = checker.call(&mut whole, write(&record, 5));
    let mut kept = events.clone();
    loop {
        let call = write(&record, random.below(7));
        let last = checker.call(&mut kept, call);
        if last.answer[0] != WRITE_CUT {
            let equal = kept == whole && last == uncut;
            checker.insist(equal, SAME, &events, call, (last, &kept));
            return;
        }
    }
}

/// The write is given up: another record, a read or an acknowledge does what it
/// would have done without it, but for what is in the slot at WR.
fn onward(checker: &mut Checker, random: &mut Random) {
    let events = start(random);
    let (given_up, other) = (record(random), record(random));
    for call in [write(&other, 5), Call::EventRead, Call::EventAcknowledge] {
        let mut without = events.clone();
        let plain = checker.call(&mut without, call);
        for allowance in 0..5 {
            let mut kept = events.clone();
            let first = checker.call(&mut kept, write(&given_up, allowance));
            if first.answer[0] != WRITE_CUT {
                break;
            }
            let told = checker.call(&mut kept, call);
            let same = kept[0] == without[0] && told == plain;
            checker.insist(same, HIDDEN, &events, call, (told, &kept));
            if kept.len() <= event_words(2) {
                drain(checker, (&mut kept, &mut without.clone()), call);
            }
        }
    }
}

/// Reads both to the end: the same records.
fn drain(checker: &mut Checker, (kept, without): (&mut [u64], &mut [u64]), call: Call) {
    let before = kept.to_vec();
    loop {
        let one: Reply = checker.call(kept, Call::EventRead);
        let other = checker.call(without, Call::EventRead);
        checker.insist(one == other, HIDDEN, &before, call, (one, kept));
        if one.number != 0 {
            return;
        }
    }
}

/// Small rings more often than large ones.
fn start(random: &mut Random) -> Vec<u64> {
    let index = loop {
        let index = any_ring(random);
        if index.n < random.between(1, 8) {
            break index;
        }
    };
    memory(random, index)
}
