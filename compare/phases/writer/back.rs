//! Writing what was read: for each legal command the same 16 bytes, but for bits that
//! aren't looked at.

use super::{command, one, ALL};
use crate::checker::Checker;
use crate::generate::commands::{features, of_code, spoilt, Command, CODES};
use crate::generate::fields::{fields, full};
use crate::generate::ranges::reaching;
use crate::generate::world::World;
use crate::model::command::{decode, Features};
use crate::model::fields::{looked_at, put};

pub fn sweeps(checker: &mut Checker) {
    checker.phase("writer: every bit of every command, read and written");
    for code in CODES {
        let whole = put(&full(code)).expect("a command of its own fields");
        for bit in 8..128 {
            for bare in [u128::from(code), whole] {
                let command = bare ^ 1 << bit;
                back(checker, (command as u64, (command >> 64) as u64), ALL);
            }
        }
    }
    let mut random = checker.phase("writer: any legal command, read and written");
    for round in 0..40_000 {
        let world = World::new(&mut random);
        let some = features(&mut random);
        let read = match round % 4 {
            0 => spoilt(&mut random, &world),
            _ => of_code(&mut random, &world, CODES[round / 4 % CODES.len()]),
        };
        back(checker, reaching(read, 2), some);
    }
}

const LAW: &str = "writing what was read doesn't give the same bytes";

fn back(checker: &mut Checker, (low, high): Command, features: u64) {
    if decode(low, high, Features::from_bits(features)).is_err() {
        return;
    }
    let read = fields((low, high)).expect("a legal command has fields");
    let (reply, written) = one(checker, &read, features);
    let due = (u128::from(high) << 64 | u128::from(low)) & looked_at(low & 0xFF);
    let met = reply.number == 0 && written == due;
    let call = command(&read, features);
    checker.insist(met, LAW, &[], call, (reply, &[]));
}
