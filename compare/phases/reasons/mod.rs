//! Why a command is illegal, and where it stands (document 02, T-09).

pub mod bits;
pub mod cases;
mod cuts;
mod queues;

use super::{bytes, from, run, waiting};
use crate::call::{Call, RAISED};
use crate::checker::Checker;

/// All but S2P: without it each reason has a command.
const FEATURES: u64 = 0b1101;

/// A command for each reason, in their order, under those features.
const ILLEGAL: [(u64, u64); 4] = [
    (0x00, 0),
    (0x2A, 0),
    (0x10 | 1 << 32, 0),
    (0x46 | 3 << 12, 0),
];

pub fn reasons(checker: &mut Checker) {
    bits::sweeps(checker);
    queues::sweeps(checker);
    cuts::sweeps(checker);
}

/// A run that raises with this reason and slot.
fn raises(checker: &mut Checker, kept: &mut [u64], call: Call, own: (u64, u64)) {
    let before = kept.to_vec();
    let reply = checker.call(kept, call);
    let [end, _, _, _, _, reason, slot, _] = reply.answer;
    let met = (end, (reason, slot)) == (RAISED, own);
    let law = "reason and slot aren't those of the illegal command";
    checker.insist(met, law, &before, call, (reply, kept));
}
