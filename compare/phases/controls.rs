//! Sweeps over control words, doorbells and queue lengths.

use super::waiting;
use crate::call::Call;
use crate::checker::Checker;
use crate::generate::commands;
use crate::generate::images::{control, with_rows};
use crate::generate::random::Random;
use crate::generate::world::World;
use crate::limits::{self, LOG2SIZE};
use crate::model::control::Control;

pub fn sweeps(checker: &mut Checker) {
    words(checker);
    doorbells(checker);
    queues(checker);
}

/// Control words with parts at and beyond their limits, by every control call.
fn words(checker: &mut Checker) {
    let mut random = checker.phase("control words");
    for log2size in 0..32 {
        for _ in 0..400 {
            let control = near_limits(&mut random, log2size);
            let mut kept = with_rows(control, &[[0; 4]]);
            if random.once_in(16) {
                kept[0] |= 1 << random.between(55, 63);
            }
            let on = random.pick(&[0, 1, 2, 1 << 32, u64::MAX]);
            let wr = random.below(2 << log2size.min(20));
            let call = random.pick(&[
                Call::State,
                Call::Acknowledge,
                Call::Enable { on },
                Call::Doorbell { wr },
            ]);
            checker.call(&mut kept, call);
            checker.call(&mut kept, Call::ClearPending);
        }
    }
}

fn near_limits(random: &mut Random, log2size: u64) -> Control {
    let ring = 2u64 << log2size.min(19);
    let rd = index(random, ring);
    let ahead = random.pick(&[0, 1, ring / 2 - 1, ring / 2, ring / 2 + 1, ring - 1]);
    let wr = if random.once_in(2) {
        (rd + ahead) % ring
    } else {
        index(random, ring)
    };
    let wide = random.below(128);
    let err = random.pick(&[0, 0, 1, 1, 1, 2, 64, wide]);
    let (gerror, pending) = random.coins();
    Control {
        rd,
        wr,
        err,
        gerror,
        gerrorn: random.once_in(2),
        enabled: random.once_in(2),
        log2size,
        pending,
    }
}

/// An index below the ring or just outside.
fn index(random: &mut Random, ring: u64) -> u64 {
    let any = random.below(ring);
    random.pick(&[
        0,
        ring / 2 - 1,
        ring / 2,
        ring - 1,
        ring,
        ring + 1,
        any,
        any,
        any,
        any,
    ])
}

/// Every doorbell of small queues, and those around the limits of the largest.
fn doorbells(checker: &mut Checker) {
    let mut random = checker.phase("doorbells");
    for log2size in 0..4 {
        let ring = 2 << log2size;
        for (rd, waits) in (0..ring).flat_map(|rd| (0..=ring / 2).map(move |waits| (rd, waits))) {
            let control = Control {
                rd,
                ..waiting(log2size, (rd + waits) % ring)
            };
            for wr in (0..ring + 2).chain([ring * 2, rd + (1 << 20), rd + (1 << 32), u64::MAX]) {
                checker.call(&mut with_rows(control, &[[0; 4]]), Call::Doorbell { wr });
            }
        }
    }
    for _ in 0..4000 {
        let log2size = random.between(4, LOG2SIZE);
        let control = control(&mut random, log2size);
        let ring = control.ring();
        let ahead = random.pick(&[0, 1, ring / 2 - 1, ring / 2, ring / 2 + 1, ring - 1]);
        let from = random.pick(&[control.rd, control.wr]);
        let wr = if random.once_in(8) {
            from + ahead
        } else {
            (from + ahead) % ring
        };
        checker.call(&mut with_rows(control, &[[0; 4]]), Call::Doorbell { wr });
    }
}

/// Queue lengths on both sides of the right one.
fn queues(checker: &mut Checker) {
    let mut random = checker.phase("queue lengths");
    let world = World::new(&mut random);
    for log2size in 0..=LOG2SIZE {
        let right = limits::bytes(log2size);
        for bytes in [
            0,
            1,
            15,
            16,
            right / 2,
            right - 16,
            right - 1,
            right,
            right + 1,
            right + 16,
            right * 2,
        ] {
            for _ in 0..4 {
                let mut queue = commands::queue(&mut random, &world, 0b1111, 1 << log2size);
                queue.resize(bytes, 0x46);
                let mut kept = with_rows(control(&mut random, log2size), &[[0; 4]; 2]);
                let (features, allowance) = (0b1111, commands::allowance(&mut random));
                checker.call(
                    &mut kept,
                    Call::Run {
                        queue: &queue,
                        features,
                        allowance,
                    },
                );
            }
        }
    }
}
