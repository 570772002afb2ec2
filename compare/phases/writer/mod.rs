//! The command writer and the batch writer (document 02, T-10).

mod back;
pub mod cases;
mod codes;
mod features;
mod lengths;
mod mixes;
mod orders;
mod ranges;
mod sequences;
mod sizes;
mod widths;

use super::waiting;
use crate::call::{Call, Reply};
use crate::checker::Checker;
use crate::generate::commands::{DPT, E2H, FOUR, HYP, RIL};
use crate::generate::fields::{full, own};
use crate::generate::images::with_rows;
use crate::model::fields::{Fields, CODE, STREAM, VMID};

/// Every feature.
const ALL: u64 = FOUR | HYP | RIL | DPT;
/// With and without E2H, which no writer looks at, and with bits that nobody does.
const SETTINGS: [u64; 3] = [ALL, ALL | E2H, !0];

pub fn writer(checker: &mut Checker) {
    codes::sweeps(checker);
    widths::sweeps(checker);
    features::sweeps(checker);
    ranges::sweeps(checker);
    lengths::sweeps(checker);
    orders::sweeps(checker);
    sizes::sweeps(checker);
    back::sweeps(checker);
    mixes::sweeps(checker);
    sequences::sweeps(checker);
}

/// What a slot holds that was used before: every byte has bits set and bits clear.
const DIRT: u8 = 0xA5;

fn command(fields: &Fields, features: u64) -> Call<'_> {
    Call::WriteCommand { fields, features }
}

fn batch(commands: &[u64], features: u64) -> Call<'_> {
    Call::WriteBatch { commands, features }
}

const LAW: &str = "a batch of one command isn't that command";

/// A command into a slot of 16 bytes: the answer, and the bytes as one number. A batch of
/// it alone has to come to the same.
fn one(checker: &mut Checker, fields: &Fields, features: u64) -> (Reply, u128) {
    let mut slot = [DIRT; 16];
    let reply = checker.write(&mut [], &mut slot, command(fields, features));
    let before = with_rows(waiting(0, 0), &[[0; 4]]);
    let (mut kept, mut queue) = (before.clone(), [DIRT; 16]);
    let call = batch(fields, features);
    let alone = checker.write(&mut kept, &mut queue, call);
    let same = alone == reply && queue == slot;
    checker.insist(same, LAW, &before, call, (alone, &kept));
    (reply, u128::from_le_bytes(slot))
}

/// The same, which has to give that number.
fn gives(checker: &mut Checker, fields: &Fields, features: u64, number: u64) {
    let (reply, _) = one(checker, fields, features);
    let law = "a writer takes other commands than T-10 has it";
    let call = command(fields, features);
    checker.insist(reply.number == number, law, &[], call, (reply, &[]));
}

/// So many commands, each of which is another than those around it; none needs DPT.
fn several(count: u64) -> Vec<u64> {
    let codes = [0x05, 0x03, 0x12, 0x01, 0x06, 0x2A, 0x46, 0x23, 0x30];
    let one = |number: u64| {
        let mut fields = full(codes[number as usize % codes.len()]);
        match own(fields[CODE]).first() {
            Some(&field @ (STREAM | VMID)) => fields[field] ^= number,
            _ => (),
        }
        fields
    };
    (0..count).flat_map(one).collect()
}
