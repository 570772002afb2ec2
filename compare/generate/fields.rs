//! Commands by their fields, for the writers (document 02, T-10).

use super::commands::{spoilt, usual, CODES};
use super::random::Random;
use super::world::World;
use crate::model::fields::*;

/// The bits of each field but the address, which has fewer in 2A and 73.
const WIDTHS: [u32; 16] = [8, 32, 20, 5, 1, 16, 16, 52, 2, 5, 5, 2, 2, 1, 4, 0];

/// Every word but the code; the last one is no field.
pub const ALL: std::ops::Range<usize> = 1..16;
pub const NONE: usize = 15;

pub fn width(code: u64, field: usize) -> u32 {
    match (code, field) {
        (0x2A, ADDRESS) => 40,
        (0x73, ADDRESS) => 44,
        _ => WIDTHS[field],
    }
}

/// The largest value of a field.
pub fn largest(code: u64, field: usize) -> u64 {
    (1 << width(code, field)) - 1
}

/// The fields that a code has, those of a range among them.
pub fn own(code: u64) -> &'static [usize] {
    match code {
        0x03 => &[STREAM, LEAF],
        0x04 => &[STREAM, RANGE],
        0x05 => &[STREAM, SUBSTREAM, LEAF],
        0x06 => &[STREAM],
        0x10 | 0x28 => &[VMID],
        0x11 => &[VMID, ASID],
        0x12 => &[VMID, ASID, LEAF, ADDRESS, NUM, SCALE, TG, TTL, TTL128],
        0x13 | 0x2A => &[VMID, LEAF, ADDRESS, NUM, SCALE, TG, TTL, TTL128],
        0x21 => &[ASID],
        0x22 => &[ASID, LEAF, ADDRESS, NUM, SCALE, TG, TTL, TTL128],
        0x23 => &[LEAF, ADDRESS, NUM, SCALE, TG, TTL, TTL128],
        0x46 => &[CS],
        0x73 => &[LEAF, ADDRESS, SIZE],
        _ => &[],
    }
}

/// A command of those fields, the others 0.
pub fn with(code: u64, values: &[(usize, u64)]) -> Fields {
    let mut fields = [0; 16];
    fields[CODE] = code;
    for &(field, value) in values {
        fields[field] = value;
    }
    fields
}

/// The fields that a code has, each with another value, so that none can stand in
/// another's place or be turned round; legal once every feature is there.
pub fn full(code: u64) -> Fields {
    let values = [
        0,
        0x89AB_CDEF,
        0x5_4321,
        0b1_0110,
        1,
        0x6789,
        0xABCD,
        0x12_3456_789A,
        2,
        0b1_0011,
        0b0_1101,
        1,
        2,
        1,
        9,
        0,
    ];
    let of = |&field: &usize| (field, values[field]);
    with(code, &own(code).iter().map(of).collect::<Vec<_>>())
}

/// The fields of a legal command whose bits come from the pools; of 30 if the features
/// let no other be.
pub fn any(random: &mut Random, world: &World, features: u64) -> Fields {
    fields(usual(random, world, features)).unwrap_or(with(0x30, &[]))
}

pub fn fields((low, high): (u64, u64)) -> Option<Fields> {
    read(u128::from(high) << 64 | u128::from(low))
}

/// A command with something wrong about it, or with another feature to miss; some are
/// right all the same.
pub fn bad(random: &mut Random, world: &World, features: u64) -> Fields {
    let mut fields = match random.below(3) {
        0 => full(random.pick(&CODES)),
        1 => fields(spoilt(random, world)).unwrap_or([0; 16]),
        _ => any(random, world, features),
    };
    let code = fields[CODE];
    let field = random.between(1, 15) as usize;
    let own = match own(code) {
        [] => field,
        own => random.pick(own),
    };
    let any = random.any_width();
    match random.below(8) {
        0 => fields[CODE] = random.pick(&[0, 7, 0x14, 0x71, code ^ 0x80, code | 0x100, any]),
        1 | 2 => fields[field] = random.pick(&[1, 2, any]),
        3 => fields[own] |= 1 << width(code, own),
        4 => fields[own] = random.pick(&[u64::MAX, any, 1 << 63]),
        5 => fields[own] = random.below(4),
        6 => fields[NONE] = random.pick(&[1, any, 1 << 63]),
        _ => (),
    }
    fields
}
