//! Illegal commands in queues: which of several is told, and when none is.

use super::{bytes, from, raises, run, FEATURES, ILLEGAL};
use crate::call::Call;
use crate::checker::Checker;
use crate::generate::images::with_rows;
use crate::limits::{LOG2SIZE, SLOTS};
use crate::model::control::Control;

/// A legal command under any features.
const LEGAL: (u64, u64) = (0x30, 0);

/// Queues up to this size are started at every place of the ring, with every
/// number of legal commands. That grows with the square of the slots, so that
/// larger ones have their edges tried.
const EVERY: u64 = LOG2SIZE / 3;

/// How many places and numbers are tried by chance in the largest queue.
const SAMPLES: u64 = 100;

pub fn sweeps(checker: &mut Checker) {
    checker.phase("reasons: an illegal command behind legal ones");
    for log2size in 0..=LOG2SIZE {
        for rd in starts(log2size) {
            for legal in numbers(log2size) {
                behind(checker, log2size, rd, legal);
            }
        }
    }
    let mut random = checker.phase("reasons: anywhere in the largest queue");
    for _ in 0..SAMPLES {
        let (rd, legal) = (random.below(2 * SLOTS), random.below(SLOTS));
        behind(checker, LOG2SIZE, rd, legal);
    }
    checker.phase("reasons: ends that carry none");
    for log2size in 0..=LOG2SIZE {
        for rd in starts(log2size) {
            none(checker, log2size, rd);
        }
    }
}

/// Places of the ring: both ends of the queue, with the wrap bit and without.
fn starts(log2size: u64) -> Vec<u64> {
    let slots = 1 << log2size;
    if log2size <= EVERY {
        (0..2 * slots).collect()
    } else {
        vec![0, 1, slots - 1, slots, slots + 1, 2 * slots - 1]
    }
}

/// Numbers of legal commands before an illegal one.
fn numbers(log2size: u64) -> Vec<u64> {
    let slots = 1 << log2size;
    if log2size <= EVERY {
        (0..slots).collect()
    } else {
        vec![0, 1, slots / 2, slots - 1]
    }
}

/// Each reason behind so many legal commands. The command after it, if there is a
/// slot for one, is illegal for another reason, whether it waits or not.
fn behind(checker: &mut Checker, log2size: u64, rd: u64, legal: u64) {
    let slots = 1u64 << log2size;
    let slot = (rd + legal) % slots;
    for (place, illegal) in ILLEGAL.into_iter().enumerate() {
        let own = (place as u64 + 1, slot);
        let mut commands = vec![LEGAL; slots as usize];
        commands[slot as usize] = illegal;
        if legal + 1 < slots {
            commands[((slot + 1) % slots) as usize] = ILLEGAL[(place + 1) % 4];
        }
        let queue = bytes(&commands);
        for waits in [legal + 1, slots] {
            again(checker, from(log2size, rd, waits), &queue, own);
        }
    }
}

/// The run raises with its own reason and slot, is held without any, and once it
/// is acknowledged raises with the same again.
fn again(checker: &mut Checker, control: Control, queue: &[u8], own: (u64, u64)) {
    let mut kept = with_rows(control, &[[0; 4]]);
    let call = run(queue, FEATURES, u64::MAX);
    for _ in 0..2 {
        raises(checker, &mut kept, call, own);
        checker.call(&mut kept, call);
        checker.call(&mut kept, Call::Acknowledge);
    }
}

/// Off, Held, Empty and Cut, with an illegal command at RD.
fn none(checker: &mut Checker, log2size: u64, rd: u64) {
    let one = from(log2size, rd, 1);
    let off = Control {
        enabled: false,
        ..one
    };
    let held = Control {
        err: 1,
        gerror: true,
        ..one
    };
    let empty = from(log2size, rd, 0);
    for illegal in ILLEGAL {
        let queue = bytes(&vec![illegal; 1 << log2size]);
        for (control, allowance) in [
            (off, u64::MAX),
            (held, u64::MAX),
            (empty, u64::MAX),
            (one, 0),
        ] {
            let mut kept = with_rows(control, &[[0; 4]]);
            checker.call(&mut kept, run(&queue, FEATURES, allowance));
        }
    }
}
