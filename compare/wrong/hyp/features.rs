//! Commands that are legal, too wide or illegal under other features, by other bits
//! or for another reason.

use super::{Asked, Fault};
use crate::generate::commands::{E2H, HYP};
use crate::model::command::{decode, Features};
use crate::model::reason::Reason;

const S1P: u64 = 1;
const S2P: u64 = 1 << 1;
const ASID16: u64 = 1 << 2;
const VMID: u64 = 0xFFFF << 32;
const ASID: u64 = 0xFFFF << 48;
const UPPER_ASID: u64 = 0xFF << 56;

pub const ALL: [(&str, Fault); 44] = [
    ("Hyp not asked", Fault::Reads(|asked| given(asked, HYP))),
    (
        "20: Hyp not asked",
        Fault::Reads(|asked| of(0x20, asked, |asked| given(asked, HYP))),
    ),
    (
        "21: Hyp not asked",
        Fault::Reads(|asked| of(0x21, asked, |asked| given(asked, HYP))),
    ),
    (
        "22: Hyp not asked",
        Fault::Reads(|asked| of(0x22, asked, |asked| given(asked, HYP))),
    ),
    (
        "23: Hyp not asked",
        Fault::Reads(|asked| of(0x23, asked, |asked| given(asked, HYP))),
    ),
    (
        "20: S1P not asked",
        Fault::Reads(|asked| of(0x20, asked, |asked| given(asked, S1P))),
    ),
    (
        "21: S1P not asked",
        Fault::Reads(|asked| of(0x21, asked, |asked| given(asked, S1P))),
    ),
    (
        "22: S1P not asked",
        Fault::Reads(|asked| of(0x22, asked, |asked| given(asked, S1P))),
    ),
    (
        "23: S1P not asked",
        Fault::Reads(|asked| of(0x23, asked, |asked| given(asked, S1P))),
    ),
    (
        "20 to 23 want S2P",
        Fault::Reads(|asked| wanting(asked, asked.own(), S2P)),
    ),
    (
        "21 wants E2H",
        Fault::Reads(|asked| wanting(asked, asked.code() == 0x21, E2H)),
    ),
    (
        "22 and 23 want E2H",
        Fault::Reads(|asked| wanting(asked, asked.code() >= 0x22, E2H)),
    ),
    (
        "Hyp wanted by 10 to 13",
        Fault::Reads(|asked| {
            let wants = (0x10..=0x13).contains(&asked.code()) && !asked.has(HYP);
            taken(asked, if wants { S1P } else { 0 })
        }),
    ),
    ("E2H never set", Fault::Reads(|asked| taken(asked, E2H))),
    ("E2H always set", Fault::Reads(|asked| always(asked, E2H))),
    (
        "E2H the other way",
        Fault::Reads(|asked| flipped(asked, E2H)),
    ),
    ("E2H in bit 4", Fault::Reads(|asked| moved(asked, E2H, 4))),
    ("E2H in bit 5", Fault::Reads(|asked| moved(asked, E2H, 5))),
    ("E2H in bit 6", Fault::Reads(|asked| moved(asked, E2H, 6))),
    ("E2H in bit 8", Fault::Reads(|asked| moved(asked, E2H, 8))),
    ("Hyp in bit 3", Fault::Reads(|asked| moved(asked, HYP, 3))),
    ("Hyp in bit 5", Fault::Reads(|asked| moved(asked, HYP, 5))),
    ("Hyp in bit 7", Fault::Reads(|asked| moved(asked, HYP, 7))),
    (
        "20: VMID not Reserved",
        Fault::Reads(|asked| of(0x20, asked, |asked| unread(asked, VMID, 0))),
    ),
    (
        "21: VMID not Reserved",
        Fault::Reads(|asked| of(0x21, asked, |asked| unread(asked, VMID, 0))),
    ),
    (
        "22: VMID not Reserved",
        Fault::Reads(|asked| of(0x22, asked, |asked| unread(asked, VMID, 0))),
    ),
    (
        "23: VMID not Reserved",
        Fault::Reads(|asked| of(0x23, asked, |asked| unread(asked, VMID, 0))),
    ),
    (
        "20: ASID not Reserved",
        Fault::Reads(|asked| of(0x20, asked, |asked| unread(asked, ASID, 0))),
    ),
    (
        "23: ASID not Reserved",
        Fault::Reads(|asked| of(0x23, asked, |asked| unread(asked, ASID, 0))),
    ),
    (
        "20: bits 127:64 not Reserved",
        Fault::Reads(|asked| of(0x20, asked, |asked| unread(asked, 0, u64::MAX))),
    ),
    (
        "21: bits 127:64 not Reserved",
        Fault::Reads(|asked| of(0x21, asked, |asked| unread(asked, 0, u64::MAX))),
    ),
    (
        "22: Leaf not read",
        Fault::Reads(|asked| of(0x22, asked, |asked| unread(asked, 0, 1))),
    ),
    (
        "23: Leaf not read",
        Fault::Reads(|asked| of(0x23, asked, |asked| unread(asked, 0, 1))),
    ),
    (
        "22: bits 63:52 not read",
        Fault::Reads(|asked| of(0x22, asked, |asked| unread(asked, 0, 0xFFF << 52))),
    ),
    (
        "23: bits 63:52 not read",
        Fault::Reads(|asked| of(0x23, asked, |asked| unread(asked, 0, 0xFFF << 52))),
    ),
    (
        "21: a wide ASID narrowed",
        Fault::Reads(|asked| of(0x21, asked, narrowed)),
    ),
    (
        "22: a wide ASID narrowed with E2H",
        Fault::Reads(|asked| match asked.has(E2H) {
            true => of(0x22, asked, narrowed),
            false => asked,
        }),
    ),
    (
        "22: a wide ASID without E2H",
        Fault::Reads(|asked| match asked.has(E2H) {
            true => asked,
            false => of(0x22, asked, narrowed),
        }),
    ),
    (
        "21 and 22: eight bits of ASID",
        Fault::Reads(|asked| match asked.code() {
            0x21 | 0x22 => taken(asked, ASID16),
            _ => asked,
        }),
    ),
    (
        "20 to 23 unknown without Hyp",
        Fault::Told(|asked, right| match right {
            2 if asked.own() && !asked.has(HYP) => 1,
            _ => right,
        }),
    ),
    (
        "20 to 23 unknown without S1P",
        Fault::Told(|asked, right| match right {
            2 if asked.own() && !asked.has(S1P) => 1,
            _ => right,
        }),
    ),
    (
        "20 to 23: Reserved bits before features",
        Fault::Told(|asked, right| match right {
            2 if asked.own() && reserved(asked) => 3,
            _ => right,
        }),
    ),
    (
        "20 to 23: VMID told as absent",
        Fault::Told(|asked, right| match right {
            3 if asked.own() && asked.low & VMID != 0 => 2,
            _ => right,
        }),
    ),
    (
        "20 to 23: Reserved told as bad",
        Fault::Told(|asked, right| match right {
            3 if asked.own() => 4,
            _ => right,
        }),
    ),
];

/// The fault for commands of one code.
fn of(code: u8, asked: Asked, fault: fn(Asked) -> Asked) -> Asked {
    if asked.code() == code {
        fault(asked)
    } else {
        asked
    }
}

/// Features that one of 20 to 23 is given.
fn given(asked: Asked, bits: u64) -> Asked {
    match asked.own() {
        true => always(asked, bits),
        false => asked,
    }
}

fn always(asked: Asked, bits: u64) -> Asked {
    Asked {
        features: asked.features | bits,
        ..asked
    }
}

fn taken(asked: Asked, bits: u64) -> Asked {
    Asked {
        features: asked.features & !bits,
        ..asked
    }
}

fn flipped(asked: Asked, bits: u64) -> Asked {
    Asked {
        features: asked.features ^ bits,
        ..asked
    }
}

/// Of 20 to 23, those that can't do without another feature either.
fn wanting(asked: Asked, so: bool, bits: u64) -> Asked {
    match asked.own() && so && !asked.has(bits) {
        true => taken(asked, HYP),
        false => asked,
    }
}

/// A feature that is read in another place.
fn moved(asked: Asked, bits: u64, place: u32) -> Asked {
    match asked.features >> place & 1 {
        0 => taken(asked, bits),
        _ => always(asked, bits),
    }
}

/// Bits of the low and the high word that nobody looks at.
fn unread(asked: Asked, low: u64, high: u64) -> Asked {
    Asked {
        low: asked.low & !low,
        high: asked.high & !high,
        ..asked
    }
}

/// The lower eight bits of an ASID, without ASID16.
fn narrowed(asked: Asked) -> Asked {
    match asked.has(ASID16) {
        true => asked,
        false => unread(asked, UPPER_ASID, 0),
    }
}

/// Whether a bit is Reserved once every feature is there.
fn reserved(asked: &Asked) -> bool {
    let all = Features::from_bits(u64::MAX);
    decode(asked.low, asked.high, all) == Err(Reason::ReservedBit)
}
