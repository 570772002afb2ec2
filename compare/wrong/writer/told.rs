//! Commands that get a refusal where none is due, or another one.

use super::{Named, Single};
use crate::generate::commands::{CODES, RANGED};
use crate::generate::fields::own;
use crate::model::fields::*;

pub fn all() -> impl Iterator<Item = (String, Single)> {
    let all = OTHERS.iter().chain(REFUSED);
    all.map(|&(name, told)| (name.into(), Single::Told(told)))
}

type Told = fn(&Named, u64) -> u64;

fn if_so(number: u64, so: bool, told: u64) -> u64 {
    if so {
        told
    } else {
        number
    }
}

/// 20 and 21 in each other's place.
const OTHERS: &[(&str, Told)] = &[
    ("21 before 20", |named, number| {
        let bad = number == 20 && put(&named.fields).is_none();
        if_so(number, bad, 21)
    }),
    (
        "21 before 20 for a field that isn't its own",
        |named, number| {
            let foreign =
                |field: usize| named.fields[field] != 0 && !own(named.code()).contains(&field);
            if_so(number, number == 20 && (1..16).any(foreign), 21)
        },
    ),
    ("21 for a missing feature", |_, number| {
        if_so(number, number == 20, 21)
    }),
    ("20 whatever is wrong", |_, number| {
        if_so(number, number == 21, 20)
    }),
    ("20 for an unknown code", |named, number| {
        if_so(number, !CODES.contains(&named.code()), 20)
    }),
    (
        "20 for an unknown code without features",
        |named, number| {
            let none = named.features & 0x7F == 0;
            if_so(number, none && !CODES.contains(&named.code()), 20)
        },
    ),
    ("20 for a known code and bits above", |named, number| {
        let low = CODES.contains(&(named.code() & 0xFF)) && named.code() > 0xFF;
        if_so(number, low && named.features & 0x7F == 0, 20)
    }),
    ("20 for a VMID without S2P", |named, number| {
        let vmid = named.fields[VMID] != 0 && !named.has(1 << 1);
        if_so(number, vmid && number == 21, 20)
    }),
    ("20 for a range without RIL", |named, number| {
        let range = named.fields[TG] != 0 && !named.has(1 << 5);
        if_so(number, range && number == 21 && named.of(&RANGED), 20)
    }),
];

/// Whether the command is legal and has that.
fn taken(number: u64, so: bool) -> u64 {
    if_so(number, number == 0 && so, 21)
}

const REFUSED: &[(&str, Told)] = &[
    ("a wide ASID without ASID16 refused", |named, number| {
        taken(number, named.fields[ASID] > 0xFF && !named.has(1 << 2))
    }),
    ("a wide VMID without VMID16 refused", |named, number| {
        taken(number, named.fields[VMID] > 0xFF && !named.has(1 << 3))
    }),
    ("a wide ASID without ASID16 gets 20", |named, number| {
        let wide = named.fields[ASID] > 0xFF && !named.has(1 << 2);
        if_so(number, wide && number == 0, 20)
    }),
    ("any VMID without S2P gets 20", |named, number| {
        let own = named.of(&[0x10, 0x11, 0x12, 0x13]) && !named.has(1 << 1);
        if_so(number, own && number == 0, 20)
    }),
    ("a Reserved SIZE refused", |named, number| {
        taken(number, named.fields[SIZE] > 9)
    }),
    ("SIZE 15 refused", |named, number| {
        taken(number, named.fields[SIZE] == 15)
    }),
    ("an unaligned address of 73 refused", |named, number| {
        let odd = named.fields[ADDRESS] & 3 != 0 && named.fields[SIZE] != 0;
        taken(number, named.of(&[0x73]) && odd)
    }),
    ("bits 55:52 of 73 refused", |named, number| {
        taken(
            number,
            named.of(&[0x73]) && named.fields[ADDRESS] >> 40 != 0,
        )
    }),
    ("an address of 2^52 and above refused", |named, number| {
        taken(number, named.fields[ADDRESS] >> 40 != 0)
    }),
    ("an address of neither half refused", |named, number| {
        let top = named.fields[ADDRESS] >> 40;
        taken(number, named.of(&RANGED) && top != 0 && top != 0xFFF)
    }),
    ("an address of 2^64 less a page refused", |named, number| {
        taken(number, named.fields[ADDRESS] == (1 << 52) - 1)
    }),
    ("a range over the top refused", |named, number| {
        let Named { fields, .. } = named;
        let granules = (fields[NUM] + 1) << (fields[SCALE] + 2 * fields[TG]);
        let end = fields[ADDRESS].saturating_add(granules);
        taken(number, fields[TG] != 0 && end > 1 << 52)
    }),
    ("an address off its granule refused", |named, number| {
        let odd = named.fields[ADDRESS] & 3 != 0;
        taken(number, named.fields[TG] > 1 && odd)
    }),
    ("16 KiB with TTL 1 refused", |named, number| {
        taken(number, (named.fields[TG], named.fields[TTL]) == (2, 1))
    }),
    ("one granule refused", |named, number| {
        let one = (named.fields[NUM], named.fields[SCALE]) == (0, 0);
        taken(number, named.fields[TG] != 0 && one)
    }),
    ("TTL128 refused", |named, number| {
        taken(number, named.fields[TTL128] != 0)
    }),
    ("TG 3 refused", |named, number| {
        taken(number, named.fields[TG] == 3)
    }),
    ("TG 0 refused with RIL", |named, number| {
        let none = named.of(&RANGED) && named.fields[TG] == 0;
        taken(number, none && named.has(1 << 5))
    }),
    ("SCALE 31 refused", |named, number| {
        taken(number, named.fields[SCALE] == 31)
    }),
    ("NUM 31 refused", |named, number| {
        taken(number, named.fields[NUM] == 31)
    }),
    ("Range 31 refused", |named, number| {
        taken(number, named.fields[RANGE] == 31)
    }),
    ("the last StreamID refused", |named, number| {
        taken(number, named.fields[STREAM] == 0xFFFF_FFFF)
    }),
    ("the last SubstreamID refused", |named, number| {
        taken(number, named.fields[SUBSTREAM] == 0xF_FFFF)
    }),
    ("the last address of 2A refused", |named, number| {
        let last = named.fields[ADDRESS] == (1 << 40) - 1;
        taken(number, named.of(&[0x2A]) && last)
    }),
    ("the last address of 73 refused", |named, number| {
        let last = named.fields[ADDRESS] == (1 << 44) - 1;
        taken(number, named.of(&[0x73]) && last)
    }),
    ("CS 2 refused", |named, number| {
        taken(number, named.fields[CS] == 2)
    }),
    ("02 refused", |named, number| {
        taken(number, named.of(&[0x02]))
    }),
    ("30 gets 20 without a stage", |named, number| {
        let none = named.features & 3 == 0;
        if_so(number, none && number == 0 && named.of(&[0x30]), 20)
    }),
    ("03 and 04 get 20 without S1P", |named, number| {
        let none = !named.has(1) && named.of(&[0x03, 0x04]);
        if_so(number, none && number == 0, 20)
    }),
    ("46 with CS 1 gets 20 without features", |named, number| {
        let none = named.features == 0 && named.fields[CS] == 1;
        if_so(number, none && number == 0, 20)
    }),
    ("an ASID in 22 refused without E2H", |named, number| {
        let asid = named.of(&[0x22]) && named.fields[ASID] != 0;
        taken(number, asid && !named.has(1 << 7))
    }),
    ("20 to 23 get 20 without E2H", |named, number| {
        let own = (0x20..=0x23).contains(&named.code()) && !named.has(1 << 7);
        if_so(number, own && number == 0, 20)
    }),
    ("features above bit 7 refused", |named, number| {
        taken(number, named.features > 0xFF)
    }),
];
