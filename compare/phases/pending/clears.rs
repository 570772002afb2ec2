//! Clearing the bit: in every state of the control word, between the calls of a
//! run that is cut, and again.

use super::{every_queue, from, PENDING};
use crate::call::Call;
use crate::checker::Checker;
use crate::generate::damage::damage;
use crate::generate::images::{image, with_rows};
use crate::generate::world::World;
use crate::limits::LOG2SIZE;
use crate::model::control::Control;
use crate::phases::cuts::Work;

/// How many memories are made by chance, and how many damaged ones.
const MEMORIES: u64 = 10_000;

pub fn sweeps(checker: &mut Checker) {
    checker.phase("pending: cleared in every state, and again");
    for log2size in 0..=LOG2SIZE {
        states(checker, log2size);
    }
    checker.phase("pending: cleared between the calls of a cut run");
    every_queue(3, |work| between(checker, work));
    any(checker);
}

/// Indexes at the ends of the ring, queues that hold none, one and all that fit,
/// and every value of the flags beside.
fn states(checker: &mut Checker, log2size: u64) {
    let slots = 1u64 << log2size;
    for rd in [0, 1, slots - 1, slots, 2 * slots - 1] {
        for waits in [0, 1, slots] {
            for flags in 0..32 {
                let bit = |place: u32| flags >> place & 1 == 1;
                let control = Control {
                    err: bit(0).into(),
                    gerror: bit(1),
                    gerrorn: bit(2),
                    enabled: bit(3),
                    pending: bit(4),
                    ..from(log2size, rd, waits)
                };
                let mut kept = with_rows(control, &[[0; 4]]);
                checker.call(&mut kept, Call::ClearPending);
                checker.call(&mut kept, Call::ClearPending);
            }
        }
    }
}

const TWICE: &str = "a bit is cleared other than once if it's set, or 12 isn't given";
const SAME: &str = "a run that was cut, cleared and called again differs in more than the bit";

/// The run cut after each number of stores, cleared and called to its end: the
/// memory of the uncut run, with the bit only if the last call set it.
fn between(checker: &mut Checker, work: &Work) {
    let mut whole = work.kept.clone();
    let uncut = checker.call(&mut whole, work.run(u64::MAX));
    for allowance in 0..=uncut.answer[2] {
        let mut kept = work.kept.clone();
        checker.call(&mut kept, work.run(allowance));
        twice(checker, &mut kept);
        let (before, call) = (kept.clone(), work.run(u64::MAX));
        let rest = checker.call(&mut kept, call);
        let set = if rest.answer[4] > 0 { PENDING } else { 0 };
        let same = kept[0] == whole[0] & !PENDING | set && kept[1..] == whole[1..];
        checker.insist(same, SAME, &before, call, (rest, &kept));
        twice(checker, &mut kept);
    }
}

/// The first call is carried out if the bit is set, else refused; the second is
/// refused.
fn twice(checker: &mut Checker, kept: &mut [u64]) {
    let before = kept.to_vec();
    let pending = kept[0] & PENDING != 0;
    let call = Call::ClearPending;
    let first = checker.call(kept, call).number;
    let second = checker.call(kept, call);
    let met = (first, second.number) == (if pending { 0 } else { 12 }, 12);
    checker.insist(met, TWICE, &before, call, (second, kept));
}

fn any(checker: &mut Checker) {
    let mut random = checker.phase("pending: cleared in any memory");
    for number in 0..2 * MEMORIES {
        let world = World::new(&mut random);
        let mut kept = image(&mut random, &world);
        if number >= MEMORIES {
            damage(&mut random, &mut kept);
        }
        checker.call(&mut kept, Call::ClearPending);
        checker.call(&mut kept, Call::ClearPending);
    }
}
