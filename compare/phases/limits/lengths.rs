//! Lengths of memory and queue, and sizes and indexes in the control word.

use super::{bytes, every_call, waiting, ALL};
use crate::call::Call;
use crate::checker::Checker;
use crate::generate::images::with_rows;
use crate::limits::{self, LOG2SIZE, ROWS, SLOTS};
use crate::model::control::Control;

pub fn sweeps(checker: &mut Checker) {
    checker.phase("limits: lengths of the memory");
    memories(checker);
    checker.phase("limits: lengths of the queue");
    for log2size in 0..=LOG2SIZE {
        queues(checker, log2size);
    }
    checker.phase("limits: sizes and indexes");
    sizes(checker);
    doorbells(checker);
}

/// What a length of 16 or 20 bits would lose.
const LOST: [usize; 2] = [1 << 16, 1 << 20];

/// Empty rows, two words less than whole ones to two more; also so many words
/// more as a short length would lose.
fn memories(checker: &mut Checker) {
    let control = Control {
        err: 1,
        gerror: true,
        pending: true,
        ..waiting(0, 1)
    };
    let queue = bytes(&[(0x46, 0)]);
    let mut memory = |length: usize| {
        let mut kept = vec![0; length];
        if let Some(word) = kept.first_mut() {
            *word = control.pack();
        }
        every_call(checker, &kept, &queue);
    };
    for rows in [0, 1, 2, ROWS - 1, ROWS, ROWS + 1, 2 * ROWS, 4 * ROWS] {
        let whole = limits::words(rows);
        for length in whole.saturating_sub(2)..=whole + 2 {
            memory(length);
        }
    }
    for lost in LOST {
        memory(limits::words(1) + lost);
        memory(limits::words(ROWS) + lost);
    }
}

/// Around the right length, whatever the run would end with.
fn queues(checker: &mut Checker, log2size: u64) {
    let right = limits::bytes(log2size);
    let near = [
        right - 16,
        right - 15,
        right - 1,
        right,
        right + 1,
        right + 15,
        right + 16,
    ];
    let far = [0, 1, 8, 15, 16, right / 2, 2 * right, 3 * right];
    let lost = LOST.map(|lost| lost + right);
    let one = waiting(log2size, 1);
    let off = Control {
        enabled: false,
        ..one
    };
    let held = Control {
        err: 1,
        gerrorn: true,
        ..one
    };
    for control in [one, off, held, waiting(log2size, 0)] {
        for length in near.into_iter().chain(far).chain(lost) {
            let queue = vec![0x46; length];
            let call = Call::Run {
                queue: &queue,
                features: ALL,
                allowance: u64::MAX,
            };
            checker.call(&mut with_rows(control, &[[0; 4]]), call);
        }
    }
}

/// Every LOG2SIZE that fits its bits, with indexes at the ends of the ring, and
/// distances around none and full; ERR and the bits above LOG2SIZE.
fn sizes(checker: &mut Checker) {
    let mut state = |word: u64| {
        let mut kept = vec![word, 0, 0, 0, 0];
        checker.call(&mut kept, Call::State);
    };
    for log2size in 0..32 {
        // An index has 20 bits, and one past the ring has to fit.
        let slots = 1u64 << log2size.min(18);
        let ring = 2 * slots;
        for rd in [0, 1, slots - 1, slots, ring - 1, ring] {
            let ahead =
                [0, 1, slots - 1, slots, slots + 1, ring - 1].map(|ahead| (rd + ahead) % ring);
            for wr in ahead.into_iter().chain([ring, ring + 1]) {
                let control = Control {
                    rd,
                    ..waiting(log2size, wr)
                };
                state(control.pack());
            }
        }
    }
    let largest = waiting(LOG2SIZE, SLOTS);
    for (err, flags) in (0..128).flat_map(|err| (0..4).map(move |flags| (err, flags))) {
        let control = Control {
            err,
            gerror: flags % 2 == 1,
            gerrorn: flags / 2 == 1,
            ..largest
        };
        state(control.pack());
    }
    (0..64).for_each(|bit| state(largest.pack() ^ 1 << bit));
}

/// Every index from the ends of the largest ring, over queues that hold none,
/// one and all that fit.
fn doorbells(checker: &mut Checker) {
    let ring = 2 * SLOTS;
    for rd in [0, SLOTS - 1, SLOTS, ring - 1] {
        for waits in [0, 1, SLOTS - 1, SLOTS] {
            let control = Control {
                rd,
                ..waiting(LOG2SIZE, (rd + waits) % ring)
            };
            for wr in 0..=ring + 1 {
                checker.call(&mut with_rows(control, &[[0; 4]]), Call::Doorbell { wr });
            }
        }
    }
}
