//! Control words with the bit set and clear, by every call.

use super::{bytes, from, rows, run, ALL, STREAM};
use crate::call::{Asked, Call};
use crate::checker::Checker;
use crate::generate::images::with_rows;
use crate::generate::rows::{cd, Words};
use crate::limits::LOG2SIZE;
use crate::model::control::Control;
use crate::phases::limits::every_call;

pub fn sweeps(checker: &mut Checker) {
    checker.phase("pending: bits 63:55 by every call");
    upper(checker);
    checker.phase("pending: kept by every other call");
    for log2size in 0..=LOG2SIZE {
        flags(checker, log2size);
    }
    doorbells(checker);
}

/// Whatever stands in bits 63:55, with an active error and without.
fn upper(checker: &mut Checker) {
    let queue = bytes(&[(0x1046, 0)]);
    for active in [false, true] {
        let control = Control {
            err: active.into(),
            gerror: active,
            ..from(0, 0, 1)
        };
        for bits in 0..1 << 9 {
            let kept = [control.pack() | bits << 55, 0, 0, 0, 0];
            every_call(checker, &kept, &queue);
        }
    }
}

/// ERR, GERROR, GERRORN and CMDQEN as they may stand together, and the bit, at the
/// ends of the ring: the calls that store to the control word, and those that
/// don't.
fn flags(checker: &mut Checker, log2size: u64) {
    let slots = 1u64 << log2size;
    for flags in 0..32 {
        let bit = |place: u32| flags >> place & 1 == 1;
        for rd in [0, slots - 1, slots, 2 * slots - 1] {
            let control = Control {
                err: bit(0).into(),
                gerror: bit(1),
                gerrorn: bit(2),
                enabled: bit(3),
                pending: bit(4),
                ..from(log2size, rd, 1)
            };
            each(checker, control);
        }
    }
}

fn each(checker: &mut Checker, control: Control) {
    let illegal = bytes(&vec![(0x3046, 0); control.slots() as usize]);
    let legal = bytes(&vec![(0x30, 0); control.slots() as usize]);
    let spare: Words = cd(STREAM, 3, 9);
    let fill = |allowance| Call::Fill {
        row: 3,
        words: spare,
        allowance,
    };
    let further = (control.wr + 1) % control.ring();
    let asked = Asked {
        stream: STREAM as u32,
        substream: 1,
        address: 0x1234,
        how: 0,
        memattr: 15,
        sh: 0,
        hints: 0,
    };
    for call in [
        run(&illegal, ALL, 1),
        run(&illegal, ALL, 0),
        run(&legal, ALL, 1),
        fill(3),
        fill(4),
        Call::Doorbell { wr: control.wr },
        Call::Doorbell { wr: further },
        Call::Acknowledge,
        Call::Enable { on: 0 },
        Call::Enable { on: 1 },
        Call::Enable { on: 1 << 55 },
        Call::Translate(asked),
        Call::State,
    ] {
        let mut kept = with_rows(control, &[&rows()[..], &[[0; 4]]].concat());
        checker.call(&mut kept, call);
    }
}

/// Every doorbell of small queues with the bit set; they are made with it clear
/// elsewhere (phases/controls.rs).
fn doorbells(checker: &mut Checker) {
    for log2size in 0..3 {
        let ring = 2 << log2size;
        for (rd, waits) in (0..ring).flat_map(|rd| (0..=ring / 2).map(move |waits| (rd, waits))) {
            let control = Control {
                pending: true,
                ..from(log2size, rd, waits)
            };
            for wr in (0..ring + 2).chain([rd | 1 << 35, 1 << 55]) {
                checker.call(&mut with_rows(control, &[[0; 4]]), Call::Doorbell { wr });
            }
        }
    }
}
