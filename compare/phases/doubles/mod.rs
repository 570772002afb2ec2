//! Fills that would double a mapping, and those that nearly would (document 02,
//! T-02).

mod calls;
pub mod cases;
mod pairs;
mod places;

use super::waiting;
use crate::call::Call;
use crate::checker::Checker;
use crate::generate::images::with_rows;
use crate::generate::rows::{Reach, Words, STAGE1, STAGE2};

const EMPTY: Words = [0; 4];
const STREAM: u64 = 0x77;
const SUBSTREAM: u64 = 5;
const VMID: u64 = 3;
const ASID: u64 = 9;
const PAGE: u64 = 0x20_0000;
const WRITE_BACK: u64 = 15;

pub fn doubles(checker: &mut Checker) {
    pairs::sweeps(checker);
    places::sweeps(checker);
    calls::sweeps(checker);
}

fn first(span: u64, page: u64) -> Reach {
    Reach {
        kind: STAGE1,
        vmid: VMID,
        asid: ASID,
        global: false,
        span,
        page,
    }
}

fn second(span: u64, page: u64) -> Reach {
    Reach {
        kind: STAGE2,
        ..first(span, page)
    }
}

/// T-02 once more, over ranges of addresses with ends that may be 2^64; and T-05's
/// marks, which keep a row out of it.
fn one_lookup(old: Words, new: Words) -> bool {
    let equal = |bits: u64| (old[0] ^ new[0]) & bits == 0;
    let (kind, last, global) = (0b110, 1 << 3, 1 << 4);
    let (vmid, asid) = (0xFFFF << 16, 0xFFFF << 32);
    let end = |row: Words| u128::from(row[2]) + (1 << (row[0] >> 5 & 0x3F));
    let meet = u128::from(old[2]) < end(new) && u128::from(new[2]) < end(old);
    let found = match old[0] & kind {
        0b000 => (old[1] ^ new[1]) % (1 << 32) == 0,
        0b010 => (old[1] ^ new[1]) % (1 << 52) == 0,
        0b100 => meet && equal(vmid) && (equal(asid) || (old[0] | new[0]) & global != 0),
        _ => meet && equal(vmid),
    };
    let unmarked = (old[0] | new[0]) & 0b11 << 11 == 0;
    found && unmarked && equal(kind) && old[0] & new[0] & last != 0
}

const LAW: &str = "11 is given other than T-02 and T-05 have it";

/// A fill into an empty row: refused with 11 exactly if one of the rows in use
/// could answer for the new one.
pub fn fill(checker: &mut Checker, rows: &[Words], row: usize, words: Words) {
    let before = with_rows(waiting(0, 0), rows);
    let call = Call::Fill {
        row: row as u64,
        words,
        allowance: 4,
    };
    let mut kept = before.clone();
    let reply = checker.call(&mut kept, call);
    let mut used = rows.iter().filter(|old| old[0] != 0);
    let due = used.any(|&old| one_lookup(old, words));
    let met = reply.number == if due { 11 } else { 0 };
    checker.insist(met, LAW, &before, call, (reply, &kept));
}
