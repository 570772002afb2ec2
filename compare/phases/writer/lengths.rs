//! Slots of other lengths: 19, whatever the fields and the features are. Queues of other
//! lengths: 4, whatever the batch is.

use super::{batch, command, several, ALL, DIRT};
use crate::call::Call;
use crate::checker::Checker;
use crate::generate::commands::CODES;
use crate::generate::fields::{full, with, NONE};
use crate::generate::images::with_rows;
use crate::limits::{bytes, LOG2SIZE};
use crate::model::control::Control;
use crate::phases::waiting;

/// What a length of 8, 16 or 20 bits would lose.
const LOST: [usize; 3] = [1 << 8, 1 << 16, 1 << 20];

pub fn sweeps(checker: &mut Checker) {
    checker.phase("writer: slots of other lengths");
    let lost = LOST.map(|lost| lost + 16);
    let far = [64, 256, 4096, 65_536];
    for length in (0..=48).chain(lost).chain(far) {
        for code in [0x30, 0x12, 0x73] {
            for fields in [full(code), with(code, &[(NONE, 1)]), with(code + 4, &[])] {
                for features in [0, ALL, !0] {
                    slot(checker, length, command(&fields, features));
                }
            }
        }
    }
    for code in CODES {
        for length in [0, 8, 15, 16, 17, 32] {
            slot(checker, length, command(&full(code), ALL));
        }
    }
    checker.phase("writer: queues of other lengths");
    for log2size in 0..=LOG2SIZE {
        queues(checker, log2size);
    }
}

const LAW: &str = "19 isn't given for what isn't 16 bytes, or for what is";

fn slot(checker: &mut Checker, length: usize, call: Call) {
    let mut slot = vec![DIRT; length];
    let reply = checker.write(&mut [], &mut slot, call);
    let met = (reply.number == 19) == (length != 16);
    checker.insist(met, LAW, &[], call, (reply, &[]));
}

const QUEUE: &str = "4 isn't given for another length than the queue's, or for that";

/// Around the right length, and so many bytes more as a short length would lose, for
/// queues in any state; with a batch of none, of one, of one that is bad or isn't whole.
fn queues(checker: &mut Checker, log2size: u64) {
    let right = bytes(log2size);
    let near = [right - 16, right - 1, right, right + 1, right + 16];
    let far = [0, 1, 16, right / 2, 2 * right];
    let lost = LOST.map(|lost| lost + right);
    let empty = waiting(log2size, 0);
    let off = Control {
        enabled: false,
        ..empty
    };
    let held = Control {
        err: 1,
        gerror: true,
        ..empty
    };
    let full = waiting(log2size, 1 << log2size);
    let one = several(1);
    for control in [empty, off, held, full] {
        for length in near.into_iter().chain(far).chain(lost) {
            for commands in [&[][..], &one, &[0; 16], &one[..15]] {
                let before = with_rows(control, &[[0; 4]]);
                let (mut kept, mut queue) = (before.clone(), vec![DIRT; length]);
                let call = batch(commands, ALL);
                let reply = checker.write(&mut kept, &mut queue, call);
                let met = (reply.number == 4) == (length != right);
                checker.insist(met, QUEUE, &before, call, (reply, &kept));
            }
        }
    }
}
