//! Commands whose bytes are others than those that were named.

use super::{parts, Named, Single};
use crate::generate::commands::RANGED;
use crate::generate::fields::own;
use crate::model::fields::*;

pub type Made = fn(&Named, u128, u128) -> u128;

pub fn all() -> impl Iterator<Item = (String, Single)> {
    let all = ADDRESSES.iter().chain(parts::PARTS).chain(WHOLE);
    all.map(|&(name, made)| (name.into(), Single::Bytes(made)))
}

/// The bits from `high` to `low`.
pub fn ones(high: u32, low: u32) -> u128 {
    u128::MAX >> (127 + low - high) << low
}

/// The command without those bits.
pub fn without(new: u128, high: u32, low: u32) -> u128 {
    new & !ones(high, low)
}

/// Those bits moved up, or down, within the word.
pub fn moved(new: u128, (high, low): (u32, u32), by: i32) -> u128 {
    let part = new & ones(high, low);
    let part = if by < 0 { part >> -by } else { part << by };
    without(new, high, low) | part
}

/// A field as a number of bits from `low` on.
pub fn at(named: &Named, field: usize, low: u32) -> u128 {
    u128::from(named.fields[field]) << low
}

fn by_address(named: &Named) -> bool {
    own(named.code()).contains(&ADDRESS)
}

const ADDRESSES: &[(&str, Made)] = &[
    (
        "an address a bit too high",
        |named, _, new| match by_address(named) {
            true => moved(new, (127, 76), 1),
            false => new,
        },
    ),
    (
        "an address a bit too low",
        |named, _, new| match by_address(named) {
            true => without(new, 127, 76) | at(named, ADDRESS, 75),
            false => new,
        },
    ),
    ("an address in bytes", |named, _, new| {
        match by_address(named) {
            true => without(new, 127, 76) | at(named, ADDRESS, 64),
            false => new,
        }
    }),
    ("an address of 48 bits", |named, _, new| {
        match by_address(named) {
            true => without(new, 127, 112),
            false => new,
        }
    }),
    ("an address of 52 bits", |named, _, new| {
        match by_address(named) {
            true => without(new, 127, 116),
            false => new,
        }
    }),
    ("73 with bits 55:52 as 0", |named, _, new| {
        match named.of(&[0x73]) {
            true => without(new, 119, 116),
            false => new,
        }
    }),
    ("2A with bit 51 lost", |named, _, new| {
        match named.of(&[0x2A]) {
            true => without(new, 115, 115),
            false => new,
        }
    }),
    (
        "bit 12 of an address lost",
        |named, _, new| match by_address(named) {
            true => without(new, 76, 76),
            false => new,
        },
    ),
    (
        "an address rounded down to its granule",
        |named, _, new| match named.fields[TG] {
            2 => without(new, 77, 76),
            3 => without(new, 79, 76),
            _ => new,
        },
    ),
    (
        "an address rounded down to its size",
        |named, _, new| match (named.code(), named.fields[SIZE]) {
            (0x73, 1) => without(new, 77, 76),
            (0x73, 2..) => without(new, 79, 76),
            _ => new,
        },
    ),
    ("bits 63:52 as bit 51 is", |named, _, new| {
        match (named.of(&RANGED[..4]), named.fields[ADDRESS] >> 39 & 1) {
            (true, 0) => without(new, 127, 116),
            (true, _) => new | ones(127, 116),
            _ => new,
        }
    }),
];

const WHOLE: &[(&str, Made)] = &[
    ("bytes the other way round", |_, _, new| new.swap_bytes()),
    ("words of bytes the other way round", |_, _, new| {
        let (low, high) = (new as u64, (new >> 64) as u64);
        u128::from(high.swap_bytes()) << 64 | u128::from(low.swap_bytes())
    }),
    ("words exchanged", |_, _, new| new.rotate_left(64)),
    ("the high word left as it was", |_, old, new| {
        old & ones(127, 64) | new & ones(63, 0)
    }),
    (
        "the high word left where it would be 0",
        |_, old, new| match new >> 64 {
            0 => old & ones(127, 64) | new,
            _ => new,
        },
    ),
    ("the low word's upper half left", |_, old, new| {
        old & ones(63, 32) | without(new, 63, 32)
    }),
    ("put over what was there", |_, old, new| old | new),
    ("turned over what was there", |_, old, new| old ^ new),
    ("the last byte left as it was", |_, old, new| {
        old & ones(127, 120) | without(new, 127, 120)
    }),
    ("the code alone", |_, _, new| new & 0xFF),
    ("nothing written", |_, old, _| old),
    (
        "bits that aren't looked at left in 01",
        |named, old, new| match named.of(&[0x01, 0x02]) {
            true => new | old & !0x4FF,
            false => new,
        },
    ),
    (
        "bits that aren't looked at left in 46",
        |named, old, new| match named.of(&[0x46]) {
            true => new | old & (ones(27, 22) | ones(127, 32)),
            false => new,
        },
    ),
    ("MSH and MSIAttr in 46", |named, _, new| {
        match named.of(&[0x46]) {
            true => new | ones(27, 22),
            false => new,
        }
    }),
    ("02 as 01", |named, _, new| match named.code() {
        0x02 => new - 1,
        _ => new,
    }),
    ("13 as 12", |named, _, new| match named.code() {
        0x13 => new - 1,
        _ => new,
    }),
    ("22 as 12", |named, _, new| match named.code() {
        0x22 => new - 0x10,
        _ => new,
    }),
];
