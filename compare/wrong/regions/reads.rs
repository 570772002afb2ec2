//! Commands that are legal or illegal otherwise, for another reason, or under other
//! features.

use super::{Asked, Fault};
use crate::generate::commands::{DPT, E2H, HYP, RIL};
use crate::generate::regions::SIZES;
use crate::model::command::{decode, Features};
use crate::model::reason::Reason;

/// A bit that is always Reserved, in the low word.
const RESERVED: u64 = 1 << 8;

const READS: [(&str, fn(Asked) -> Asked); 37] = [
    ("DPT not asked", |it| own(it, |it| given(it, DPT))),
    ("DPT not asked by 70", |it| {
        of(it, 0x70, |it| given(it, DPT))
    }),
    ("DPT not asked by 73", |it| {
        of(it, 0x73, |it| given(it, DPT))
    }),
    ("DPT never there", |it| taken(it, DPT)),
    ("DPT in bit 5", |it| moved(it, 5)),
    ("DPT in bit 7", |it| moved(it, 7)),
    ("DPT in bit 8", |it| moved(it, 8)),
    ("DPT in bit 4", |it| moved(it, 4)),
    ("DPT wants S1P", |it| wants(it, 1)),
    ("DPT wants S2P", |it| wants(it, 1 << 1)),
    ("DPT wants Hyp", |it| wants(it, HYP)),
    ("DPT wants RIL", |it| wants(it, RIL)),
    ("DPT wants E2H", |it| wants(it, E2H)),
    ("DPT wanted by 30", |it| match it.code() {
        0x30 if it.features & DPT == 0 => raised(it),
        _ => it,
    }),
    ("70: low bits not Reserved", |it| {
        of(it, 0x70, |it| unread(it, !0xFF, 0))
    }),
    ("70: high bits not Reserved", |it| {
        of(it, 0x70, |it| unread(it, 0, !0))
    }),
    ("70: the fields of 73 not Reserved", |it| {
        of(it, 0x70, |it| unread(it, 0, 0x00FF_FFFF_FFFF_FF01))
    }),
    ("70: Leaf not Reserved", |it| {
        of(it, 0x70, |it| unread(it, 0, 1))
    }),
    ("73: low bits not Reserved", |it| {
        of(it, 0x73, |it| unread(it, !0xFF, 0))
    }),
    ("73: bits 127:120 not Reserved", |it| {
        of(it, 0x73, |it| unread(it, 0, 0xFF << 56))
    }),
    ("73: bit 120 not Reserved", |it| {
        of(it, 0x73, |it| unread(it, 0, 1 << 56))
    }),
    ("73: bits 71:65 not Reserved", |it| {
        of(it, 0x73, |it| unread(it, 0, 0x7F << 1))
    }),
    ("73: bit 71 not Reserved", |it| {
        of(it, 0x73, |it| unread(it, 0, 1 << 7))
    }),
    ("73: bit 65 not Reserved", |it| {
        of(it, 0x73, |it| unread(it, 0, 1 << 1))
    }),
    ("73: VMID not Reserved", |it| {
        of(it, 0x73, |it| unread(it, 0xFFFF << 32, 0))
    }),
    ("73: NUM and SCALE not Reserved", |it| {
        of(it, 0x73, |it| unread(it, 0x01F1_F000, 0))
    }),
    ("73: bits 55:52 Reserved", |it| {
        of(it, 0x73, |it| raises(it, it.high >> 52 & 15 != 0))
    }),
    ("73: Leaf Reserved", |it| {
        of(it, 0x73, |it| raises(it, it.high & 1 == 1))
    }),
    ("73: a Reserved SIZE illegal", |it| {
        of(it, 0x73, |it| raises(it, it.high >> 8 & 15 > 9))
    }),
    ("73: SIZE 10 illegal", |it| {
        of(it, 0x73, |it| raises(it, it.high >> 8 & 15 == 10))
    }),
    ("73: SIZE 9 illegal", |it| {
        of(it, 0x73, |it| raises(it, it.high >> 8 & 15 == 9))
    }),
    ("73: an unaligned address illegal", |it| {
        of(it, 0x73, |it| raises(it, unaligned(&it)))
    }),
    ("73: SIZE of three bits", |it| {
        of(it, 0x73, |it| unread(it, 0, 8 << 8))
    }),
    ("73: SIZE one higher", |it| {
        of(it, 0x73, |it| resized(it, |size| (size + 1) & 15))
    }),
    ("73: SIZE one lower", |it| {
        of(it, 0x73, |it| resized(it, |size| size.saturating_sub(1)))
    }),
    ("71 as 70", |it| recoded(it, 0x71, 0x70)),
    ("72 as 73", |it| recoded(it, 0x72, 0x73)),
];

const TOLD: [(&str, fn(&Asked, u64) -> u64); 7] = [
    ("70 and 73 unknown without DPT", |it, right| match right {
        2 if it.of_table() => 1,
        _ => right,
    }),
    ("70 unknown without DPT", |it, right| {
        match (right, it.code()) {
            (2, 0x70) => 1,
            _ => right,
        }
    }),
    ("73: unknown without DPT", |it, right| {
        match (right, it.code()) {
            (2, 0x73) => 1,
            _ => right,
        }
    }),
    (
        "70 and 73: Reserved bits before features",
        |it, right| match right {
            2 if it.of_table() && reserved(it) => 3,
            _ => right,
        },
    ),
    ("70 and 73: Reserved told as bad", |it, right| match right {
        3 if it.of_table() => 4,
        _ => right,
    }),
    ("71 told as absent", |it, right| match (right, it.code()) {
        (1, 0x71) => 2,
        _ => right,
    }),
    ("73: bits 127:120 told as bad", |it, right| match right {
        3 if it.code() == 0x73 && it.high >> 56 != 0 => 4,
        _ => right,
    }),
];

pub fn all() -> Vec<(String, Fault)> {
    let reads = READS.map(|(name, read)| (name.into(), Fault::Reads(read)));
    let told = TOLD.map(|(name, told)| (name.into(), Fault::Told(told)));
    reads.into_iter().chain(told).collect()
}

/// The fault for 70 and 73 alone.
fn own(asked: Asked, fault: fn(Asked) -> Asked) -> Asked {
    match asked.of_table() {
        true => fault(asked),
        false => asked,
    }
}

fn of(asked: Asked, code: u8, fault: fn(Asked) -> Asked) -> Asked {
    match asked.code() == code {
        true => fault(asked),
        false => asked,
    }
}

fn given(asked: Asked, bits: u64) -> Asked {
    Asked {
        features: asked.features | bits,
        ..asked
    }
}

fn taken(asked: Asked, bits: u64) -> Asked {
    Asked {
        features: asked.features & !bits,
        ..asked
    }
}

/// DPT is read in another place.
fn moved(asked: Asked, place: u32) -> Asked {
    match asked.features >> place & 1 {
        0 => taken(asked, DPT),
        _ => given(asked, DPT),
    }
}

/// 70 and 73 can't do without another feature either.
fn wants(asked: Asked, bits: u64) -> Asked {
    match asked.has(bits) {
        true => asked,
        false => taken(asked, DPT),
    }
}

fn unread(asked: Asked, low: u64, high: u64) -> Asked {
    Asked {
        low: asked.low & !low,
        high: asked.high & !high,
        ..asked
    }
}

fn raised(asked: Asked) -> Asked {
    Asked {
        low: asked.low | RESERVED,
        ..asked
    }
}

fn raises(asked: Asked, so: bool) -> Asked {
    match so {
        true => raised(asked),
        false => asked,
    }
}

fn unaligned(asked: &Asked) -> bool {
    let size = SIZES.get(asked.high as usize >> 8 & 15);
    size.is_some_and(|size| asked.high >> 12 << 12 & ((1 << size) - 1) != 0)
}

fn resized(asked: Asked, size: fn(u64) -> u64) -> Asked {
    let size = size(asked.high >> 8 & 15);
    Asked {
        high: asked.high & !0xF00 | size << 8,
        ..asked
    }
}

fn recoded(asked: Asked, from: u8, to: u64) -> Asked {
    match asked.code() == from {
        true => Asked {
            low: asked.low & !0xFF | to,
            ..asked
        },
        false => asked,
    }
}

/// Whether a bit is Reserved once every feature is there.
fn reserved(asked: &Asked) -> bool {
    let all = Features::from_bits(u64::MAX);
    decode(asked.low, asked.high, all) == Err(Reason::ReservedBit)
}
