//! Batches into queues of every size, from every place of the small ones, and on both
//! sides of what fits.

use super::{batch, several, ALL, DIRT};
use crate::checker::Checker;
use crate::generate::images::with_rows;
use crate::generate::rows::cd;
use crate::limits::{bytes, LOG2SIZE};
use crate::model::control::Control;
use crate::phases::from;

/// Queues up to this size are gone through index by index.
const SMALL: u64 = 3;

pub fn sweeps(checker: &mut Checker) {
    checker.phase("writer: every batch into every small queue");
    for log2size in 0..=SMALL {
        let slots = 1 << log2size;
        for rd in 0..2 * slots {
            for waits in 0..=slots {
                for count in 0..=slots + 2 {
                    into(checker, from(log2size, rd, waits), count);
                }
            }
        }
    }
    checker.phase("writer: batches on both sides of what fits");
    for log2size in SMALL + 1..=LOG2SIZE {
        around(checker, log2size);
    }
    // More than 16 bits count.
    into(checker, from(0, 0, 0), (1 << 16) + 1);
    into(checker, from(LOG2SIZE, 5, 0), 1 << 16);
    checker.phase("writer: batches whatever the queue's state");
    for log2size in [0, 1, 4, LOG2SIZE] {
        states(checker, log2size);
    }
}

const LAW: &str = "a batch is taken that doesn't fit, or isn't that does";

fn into(checker: &mut Checker, control: Control, count: u64) {
    let before = with_rows(control, &[cd(1, 2, 3), [0; 4]]);
    let mut kept = before.clone();
    let mut queue = vec![DIRT; bytes(control.log2size)];
    let commands = several(count);
    let call = batch(&commands, ALL);
    let reply = checker.write(&mut kept, &mut queue, call);
    let free = control.slots() - control.distance(control.wr);
    let right = if count > free { 22 } else { 0 };
    checker.insist(reply.number == right, LAW, &before, call, (reply, &kept));
}

/// From the ends of the queue and of the ring, with few slots left and with many. Long
/// batches are few, since each of their commands is composed.
fn around(checker: &mut Checker, log2size: u64) {
    let slots = 1 << log2size;
    let ring = 2 * slots;
    for rd in [0, slots - 1, slots, ring - 1] {
        for free in [0, 1, 2, 5] {
            for count in [0, 1, free, free + 1] {
                into(checker, from(log2size, rd, slots - free), count);
            }
        }
    }
    for (rd, waits) in [
        (0, 0),
        (slots - 2, 0),
        (ring - 1, 1),
        (slots / 2, slots / 2),
    ] {
        let free = slots - waits;
        for count in [free, free + 1] {
            into(checker, from(log2size, rd, waits), count);
        }
        into(checker, from(log2size, rd, waits), free.min(7));
    }
}

/// Off, held, acknowledged, pending: none of them keeps a batch out.
fn states(checker: &mut Checker, log2size: u64) {
    let slots = 1 << log2size;
    for state in 0..1 << 5 {
        let bit = |place: u32| state >> place & 1 == 1;
        let control = |rd, waits| {
            let gerror = bit(0);
            Control {
                enabled: bit(2),
                gerror,
                gerrorn: gerror != bit(1),
                err: u64::from(bit(1) || bit(3)),
                pending: bit(4),
                ..from(log2size, rd, waits)
            }
        };
        for rd in [0, slots - 1, 2 * slots - 1] {
            into(checker, control(rd, 0), 1);
            into(checker, control(rd, slots - 1), 1);
            into(checker, control(rd, slots), 1);
            into(checker, control(rd, slots), 0);
        }
    }
}
