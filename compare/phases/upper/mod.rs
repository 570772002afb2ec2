//! Both edges of each half of the addresses (document 02, T-04).

pub mod cases;
mod commands;
pub mod forms;
mod transactions;

use super::{bytes, run, waiting};
use crate::checker::Checker;
use crate::generate::rows::{Reach, STAGE1, STAGE2};
use crate::limits::{ADDRESS, SPANS, UPPER};

const ALL: u64 = 0b1111;
const VMID: u64 = 3;
const ASID: u64 = 9;

/// The least and the largest span.
const ENDS: [u64; 2] = [*SPANS.start(), *SPANS.end()];

pub fn upper(checker: &mut Checker) {
    forms::sweeps(checker);
    commands::sweeps(checker);
    transactions::sweeps(checker);
}

fn first(span: u64, page: u64) -> Reach {
    Reach {
        kind: STAGE1,
        vmid: VMID,
        asid: ASID,
        global: false,
        span,
        page,
    }
}

/// Stage 2 at the same place of the lower half, which is all that it has.
fn second(span: u64, page: u64) -> Reach {
    Reach {
        kind: STAGE2,
        page: page % ADDRESS,
        ..first(span, page)
    }
}

/// Inputs that a stage 1 row of the span may have: at the ends of each half, one
/// further in, and in the middle of the upper half.
pub fn inside(span: u64) -> [u64; 9] {
    let size = 1u64 << span;
    [
        0,
        size,
        ADDRESS - 2 * size,
        ADDRESS - size,
        UPPER,
        UPPER + size,
        UPPER + ADDRESS / 2,
        (2 * size).wrapping_neg(),
        size.wrapping_neg(),
    ]
}

/// The address with each value of bits 63:52.
fn any_half(address: u64) -> impl Iterator<Item = u64> {
    (0..1 << 12).map(move |half| address % ADDRESS | half << 52)
}

/// The address with one of the bits 63:52 changed.
fn in_neither(address: u64) -> impl Iterator<Item = u64> {
    (52..64).map(move |bit| address ^ 1 << bit)
}
