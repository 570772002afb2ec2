//! Commands whose fields, or the features for them, are taken for others, and those that
//! are written though they are illegal.

use super::{Named, Single};
use crate::generate::commands::RANGED;
use crate::generate::fields::{largest, own, ALL};
use crate::model::fields::*;

const NAMES: [&str; 16] = [
    "the code",
    "StreamID",
    "SubstreamID",
    "Range",
    "Leaf",
    "VMID",
    "ASID",
    "the address",
    "CS",
    "NUM",
    "SCALE",
    "TG",
    "TTL",
    "TTL128",
    "SIZE",
    "word 15",
];

pub fn all() -> impl Iterator<Item = (String, Single)> {
    let cut = (1..15).map(|field| {
        let name = format!("too wide: {} cut off", NAMES[field]);
        (name, Single::Cut(field))
    });
    let unseen = ALL.map(|field| {
        let name = format!("not the code's: {} not looked at", NAMES[field]);
        (name, Single::Unseen(field))
    });
    let taken = TAKEN.map(|(name, taken)| (name.into(), Single::Takes(taken)));
    let written = WRITTEN.map(|(name, made)| (name.into(), Single::Writes(made)));
    cut.chain(unseen).chain(taken).chain(written)
}

/// With a field of its own cut off at its width.
pub fn cut(mut named: Named, field: usize) -> Named {
    if own(named.code()).contains(&field) {
        named.fields[field] &= largest(named.code(), field);
    }
    named
}

/// With a field that the code doesn't have taken for 0.
pub fn unseen(mut named: Named, field: usize) -> Named {
    if !own(named.code()).contains(&field) {
        named.fields[field] = 0;
    }
    named
}

fn with(named: Named, features: u64) -> Named {
    Named {
        features: named.features | features,
        ..named
    }
}

const TAKEN: [(&str, fn(Named) -> Named); 22] = [
    ("a code of eight bits", |mut named| {
        named.fields[CODE] &= 0xFF;
        named
    }),
    ("words of 32 bits", |named| {
        let address = named.fields[ADDRESS];
        let mut fields = named.fields.map(|field| field & 0xFFFF_FFFF);
        fields[ADDRESS] = address;
        Named { fields, ..named }
    }),
    ("a code of 63 bits", |mut named| {
        named.fields[CODE] &= u64::MAX >> 1;
        named
    }),
    ("an address of 63 bits", |mut named| {
        named.fields[ADDRESS] &= u64::MAX >> 1;
        named
    }),
    ("an address with its upper 12 bits lost", |mut named| {
        named.fields[ADDRESS] &= u64::MAX >> 12;
        named
    }),
    ("a VMID without S2P dropped", |mut named| {
        if !named.has(1 << 1) && named.of(&[0x10, 0x11, 0x12, 0x13]) {
            named.fields[VMID] = 0;
        }
        named
    }),
    ("a VMID without S2P written", |named| {
        match named.of(&[0x10, 0x11, 0x12, 0x13]) {
            true => with(named, 1 << 1),
            false => named,
        }
    }),
    ("a range without RIL dropped", |mut named| {
        if !named.has(1 << 5) && named.of(&RANGED) {
            named.fields[NUM..=TTL128].fill(0);
        }
        named
    }),
    ("a range without RIL written", |named| with(named, 1 << 5)),
    ("S1P not looked at", |named| with(named, 1)),
    ("S2P not looked at for 28 and 2A", |named| {
        match named.of(&[0x28, 0x2A]) {
            true => with(named, 1 << 1),
            false => named,
        }
    }),
    ("Hyp not looked at", |named| with(named, 1 << 4)),
    ("DPT not looked at", |named| with(named, 1 << 6)),
    ("DPT not looked at for 70", |named| match named.code() {
        0x70 => with(named, 1 << 6),
        _ => named,
    }),
    ("S1P not looked at for 20 to 23", |named| {
        match named.of(&[0x20, 0x21, 0x22, 0x23]) {
            true => with(named, 1),
            false => named,
        }
    }),
    ("S1P not looked at for 05 and 06", |named| {
        match named.of(&[0x05, 0x06]) {
            true => with(named, 1),
            false => named,
        }
    }),
    ("S2P for S1P", |named| match named.has(1 << 1) {
        true => with(named, 1),
        false => named,
    }),
    ("E2H for Hyp", |named| match named.has(1 << 7) {
        true => with(named, 1 << 4),
        false => named,
    }),
    ("NUM with TG 0 dropped", |mut named| {
        if named.of(&RANGED) && named.fields[TG] == 0 {
            named.fields[NUM] = 0;
        }
        named
    }),
    ("TTL with TG 0 dropped", |mut named| {
        if named.of(&RANGED) && named.fields[TG] == 0 {
            named.fields[TTL] = 0;
        }
        named
    }),
    ("TTL128 with TTL 0 dropped", |mut named| {
        if named.of(&RANGED) && named.fields[TTL] == 0 {
            named.fields[TTL128] = 0;
        }
        named
    }),
    ("TG with neither range nor level dropped", |mut named| {
        if named.fields[NUM..=SCALE] == [0, 0] && named.fields[TTL..=TTL128] == [0, 0] {
            named.fields[TG] &= 3;
            if named.of(&RANGED) {
                named.fields[TG] = 0;
            }
        }
        named
    }),
];

/// The fields as they stand, if none is too wide and some are so.
fn as_named(named: &Named, so: bool) -> Option<u128> {
    put(&named.fields).filter(|_| so)
}

const WRITTEN: [(&str, fn(&Named) -> Option<u128>); 12] = [
    ("CS 3 written", |named| as_named(named, named.of(&[0x46]))),
    ("TG with neither range nor level written", |named| {
        let fields = &named.fields;
        let none = (fields[NUM], fields[SCALE], fields[TTL], fields[TTL128]) == (0, 0, 0, 0);
        as_named(named, fields[TG] != 0 && none && named.has(1 << 5))
    }),
    ("16 KiB with TTL 1 alone written", |named| {
        let fields = &named.fields;
        let alone = (fields[NUM], fields[SCALE]) == (0, 0);
        as_named(named, (fields[TG], fields[TTL]) == (2, 1) && alone)
    }),
    ("NUM with TG 0 written", |named| {
        as_named(named, named.fields[TG] == 0 && named.fields[NUM] != 0)
    }),
    ("SCALE with TG 0 written", |named| {
        as_named(named, named.fields[TG] == 0 && named.fields[SCALE] != 0)
    }),
    ("TTL128 with TTL 0 written", |named| {
        let fields = &named.fields;
        as_named(
            named,
            fields[TG] != 0 && (fields[TTL], fields[TTL128]) == (0, 1),
        )
    }),
    ("any range written with RIL", |named| {
        as_named(named, named.of(&RANGED) && named.has(1 << 5))
    }),
    ("2A with 52 bits of address", |named| wider(named, 0x2A, 52)),
    ("73 with 52 bits of address", |named| wider(named, 0x73, 52)),
    ("SCALE of six bits", |named| {
        let (mut fields, scale) = (named.fields, named.fields[SCALE]);
        fields[SCALE] &= 31;
        let sixth = u128::from(scale & 32) << 20;
        put(&fields)
            .map(|command| command | sixth)
            .filter(|_| scale < 64 && scale >= 32 && fields[TG] != 0 && named.has(1 << 5))
    }),
    ("07 written", |named| {
        let mut others = named.fields;
        others[CODE] = 0x30;
        put(&others)
            .map(|command| command & !0xFF | 0x07)
            .filter(|_| named.code() == 0x07)
    }),
    ("code 0 written", |named| {
        (named.fields == [0; 16]).then_some(0)
    }),
];

/// An address of more bits than the code has.
fn wider(named: &Named, code: u64, width: u32) -> Option<u128> {
    let mut fields = named.fields;
    let address = std::mem::take(&mut fields[ADDRESS]);
    let fits = named.code() == code && address >> width == 0;
    put(&fields)
        .map(|command| command | u128::from(address) << 76)
        .filter(|_| fits && address > largest(code, ADDRESS))
}
