//! Each call on rings of every size: wrapped, full, overflown and empty.

use super::write;
use crate::call::Call;
use crate::checker::Checker;
use crate::generate::events::{any_ring, damage, memory, record, ring, rings};
use crate::generate::random::Random;
use crate::limits::EVENTS;

/// How many recorders are made by chance, and how many damaged ones.
const RECORDERS: u64 = 1_500;

pub fn sweeps(checker: &mut Checker) {
    let mut random = checker.phase("events: every call on every ring");
    for index in (0..=EVENTS).flat_map(rings) {
        let events = memory(&mut random, index);
        each(checker, &mut random, &events);
    }
    let mut random = checker.phase("events: every slot of the largest ring");
    slots(checker, &mut random);
    let mut random = checker.phase("events: every bit of the allowance");
    allowances(checker, &mut random);
    let mut random = checker.phase("events: any recorder, and damaged ones");
    any(checker, &mut random);
}

/// A write at each allowance that matters, a read and an acknowledge.
fn each(checker: &mut Checker, random: &mut Random, events: &[u64]) {
    let record = record(random);
    let large = random.next() << 3;
    let writes = [0, 1, 2, 3, 4, 5, 6, large | 1 << 63].map(|allowance| write(&record, allowance));
    let others = [Call::EventRead, Call::EventAcknowledge];
    for call in writes.into_iter().chain(others) {
        checker.call(&mut events.to_vec(), call);
    }
}

/// RD at each index of the ring, which is empty, holds one record or is full; each
/// time one is written and one read.
fn slots(checker: &mut Checker, random: &mut Random) {
    let slots = 1 << EVENTS;
    for rd in 0..2 * slots {
        for held in [0, 1, slots - 1, slots] {
            let mut events = memory(random, ring(EVENTS, rd, held, rd % 4));
            let record = record(random);
            checker.call(&mut events, write(&record, 5));
            checker.call(&mut events, Call::EventRead);
        }
    }
}

/// A ring with room, a full one, and a full one that is overflown: allowances with
/// one bit set, beside none or four.
fn allowances(checker: &mut Checker, random: &mut Random) {
    for (held, flags) in [(1, 0), (2, 0), (2, 1)] {
        let events = memory(random, ring(1, 3, held, flags));
        let record = record(random);
        for (bit, low) in (0..64).flat_map(|bit| [(bit, 0), (bit, 4)]) {
            let call = write(&record, 1 << bit | low);
            checker.call(&mut events.clone(), call);
        }
    }
}

fn any(checker: &mut Checker, random: &mut Random) {
    for number in 0..2 * RECORDERS {
        let index = any_ring(random);
        let mut events = memory(random, index);
        if number >= RECORDERS {
            damage(random, &mut events);
        }
        each(checker, random, &events);
    }
}
