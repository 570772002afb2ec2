//! Commands with fields of a range that are legal or illegal otherwise, for another
//! reason, or under other features; and that take rows of another sort.

use super::{Asked, Fault};
use super::{ASID16, HIGH, LOW, S1P, S2P, VMID16};
use crate::generate::commands::{E2H, HYP, RANGED, RIL};
use crate::generate::rows::{marked, EL2, EL2_E2H};
use crate::model::range::Fields;
use crate::model::row::{Kind, Row};

const NUM: u64 = 31 << 12;
const SCALE: u64 = 31 << 20;
const TTL128: u64 = 1 << 7;
const TTL: u64 = 3 << 8;
const TG: u64 = 3 << 10;
/// A bit that is always Reserved, in the high word.
const RESERVED: u64 = 1 << 6;

/// Those that each code may have alone.
const EACH: [(&str, fn(Asked) -> Asked); 7] = [
    ("RIL not asked", |asked| given(asked, RIL)),
    ("RIL never there", |asked| without(asked, RIL)),
    ("range fields not Reserved", |asked| match asked.has(RIL) {
        true => asked,
        false => cleared(asked, LOW, HIGH),
    }),
    ("wants RIL", |asked| match asked.has(RIL) {
        true => asked,
        false => raised(asked, 0, RESERVED),
    }),
    ("TG not read", |asked| cleared(asked, LOW, HIGH)),
    ("nothing is bad", |asked| match bad(&asked) {
        true => level(asked, 2),
        false => asked,
    }),
    ("bit 25 not Reserved", |asked| cleared(asked, 1 << 25, 0)),
];

const READS: [(&str, fn(Asked) -> Asked); 58] = [
    ("RIL not asked", |asked| {
        ranged(asked, |asked| given(asked, RIL))
    }),
    ("RIL never there", |asked| {
        ranged(asked, |asked| without(asked, RIL))
    }),
    ("RIL in bit 4", |asked| moved(asked, 4)),
    ("RIL in bit 6", |asked| moved(asked, 6)),
    ("RIL in bit 7", |asked| moved(asked, 7)),
    ("RIL wants Hyp", |asked| match asked.has(HYP) {
        true => asked,
        false => without(asked, RIL),
    }),
    ("RIL wants S2P", |asked| match asked.has(S2P) {
        true => asked,
        false => without(asked, RIL),
    }),
    ("TG 0: NUM legal", |asked| at_none(asked, NUM, 0)),
    ("TG 0: SCALE legal", |asked| at_none(asked, SCALE, 0)),
    ("TG 0: TTL legal", |asked| at_none(asked, 0, TTL)),
    ("TG 0: TTL128 legal", |asked| at_none(asked, 0, TTL128)),
    ("TG 0: all legal", |asked| {
        at_none(asked, NUM | SCALE, TTL | TTL128)
    }),
    ("TG 0 with a range as 4 KiB", |asked| match asked.fields() {
        Some(Fields {
            tg: 0, num, scale, ..
        }) if num + scale > 0 => raised(asked, 0, 1 << 10),
        _ => asked,
    }),
    ("TTL128 without TTL legal", |asked| no_level(asked, 1..=3)),
    ("TTL128 without TTL legal at 4 KiB", |asked| {
        no_level(asked, 1..=1)
    }),
    ("TTL128 without TTL legal at 16 KiB", |asked| {
        no_level(asked, 2..=2)
    }),
    ("TTL128 without TTL legal at 64 KiB", |asked| {
        no_level(asked, 3..=3)
    }),
    ("TTL128 Reserved", |asked| {
        ranged(asked, |asked| match asked.high & TTL128 {
            0 => asked,
            _ => raised(asked, 0, RESERVED),
        })
    }),
    ("TTL Reserved", |asked| {
        ranged(asked, |asked| match asked.high & TTL {
            0 => asked,
            _ => raised(asked, 0, RESERVED),
        })
    }),
    ("TG 3 Reserved", |asked| {
        ranged(asked, |asked| match asked.high & TG {
            TG => raised(asked, 0, RESERVED),
            _ => asked,
        })
    }),
    ("bad at 4 KiB legal", |asked| bad_legal(asked, 1, 0)),
    ("bad at 16 KiB legal", |asked| bad_legal(asked, 2, 0)),
    ("bad at 64 KiB legal", |asked| bad_legal(asked, 3, 0)),
    ("bad as the address", |asked| match bad(&asked) {
        true => cleared(asked, 0, TG | TTL | TTL128),
        false => asked,
    }),
    ("TTL 1 of 16 KiB legal", |asked| bad_legal(asked, 2, 1)),
    ("TTL 1 of 16 KiB with TTL128 legal", |asked| {
        match asked.high & TTL128 {
            0 => asked,
            _ => bad_legal(asked, 2, 1),
        }
    }),
    ("TTL 1 of 16 KiB without TTL128 legal", |asked| {
        match asked.high & TTL128 {
            0 => bad_legal(asked, 2, 1),
            _ => asked,
        }
    }),
    ("TTL 1 of 16 KiB bad with a range", |asked| {
        match asked.fields() {
            Some(Fields { tg: 2, ttl: 1, .. }) => cleared(asked, NUM | SCALE, 0),
            _ => asked,
        }
    }),
    ("TTL 1 of 16 KiB has no TTL128", |asked| {
        match asked.fields() {
            Some(Fields {
                tg: 2,
                ttl: 1,
                ttl128: true,
                ..
            }) => raised(asked, 0, RESERVED),
            _ => asked,
        }
    }),
    ("TTL 1 of 4 KiB bad", |asked| level_bad(asked, 1, 1)),
    ("TTL 1 of 64 KiB bad", |asked| level_bad(asked, 3, 1)),
    ("TTL 2 of 16 KiB bad", |asked| level_bad(asked, 2, 2)),
    ("TTL 3 of 16 KiB bad", |asked| level_bad(asked, 2, 3)),
    ("one granule bad", |asked| match asked.fields() {
        Some(Fields {
            num: 0,
            scale: 0,
            tg: 1..,
            ..
        }) => cleared(asked, 0, TTL | TTL128),
        _ => asked,
    }),
    ("NUM 0 bad", |asked| match asked.fields() {
        Some(Fields {
            num: 0,
            ttl: 0,
            tg: 1..,
            ..
        }) => cleared(asked, SCALE, 0),
        _ => asked,
    }),
    ("SCALE 0 bad", |asked| match asked.fields() {
        Some(Fields {
            scale: 0,
            ttl: 0,
            tg: 1..,
            ..
        }) => cleared(asked, NUM, 0),
        _ => asked,
    }),
    ("an address within a granule bad", |asked| {
        match asked.fields() {
            Some(Fields { tg, .. })
                if tg > 1 && asked.high >> 12 & [0, 0, 3, 15][tg as usize] != 0 =>
            {
                cleared(asked, NUM | SCALE, TTL | TTL128)
            }
            _ => asked,
        }
    }),
    ("a range beyond the top bad", |asked| match asked.fields() {
        Some(Fields {
            num, scale, tg: 1, ..
        }) if (asked.high >> 12) + ((num + 1) << scale) > 1 << 52 => {
            cleared(asked, NUM | SCALE, TTL | TTL128)
        }
        _ => asked,
    }),
    ("SCALE of six bits", |asked| {
        ranged(asked, |asked| match asked.low >> 25 & 1 {
            0 => asked,
            _ => raised(cleared(asked, 1 << 25, 0), SCALE, 0),
        })
    }),
    ("bit 25 not Reserved", |asked| {
        granular(asked, |asked| cleared(asked, 1 << 25, 0))
    }),
    ("bits 11:8 not Reserved", |asked| {
        granular(asked, |asked| cleared(asked, 0xF00, 0))
    }),
    ("bits 19:17 not Reserved", |asked| {
        granular(asked, |asked| cleared(asked, 7 << 17, 0))
    }),
    ("bits 31:26 not Reserved", |asked| {
        granular(asked, |asked| cleared(asked, 63 << 26, 0))
    }),
    ("bits 70:65 not Reserved", |asked| {
        granular(asked, |asked| cleared(asked, 0, 63 << 1))
    }),
    ("2A: bits 127:116 not Reserved", |asked| {
        match asked.low & 0xFF {
            0x2A => granular(asked, |asked| cleared(asked, 0, 0xFFF << 52)),
            _ => asked,
        }
    }),
    ("12 and 13: bits 127:116 Reserved", |asked| {
        match asked.low & 0xFF {
            0x12 | 0x13 if asked.high >> 52 != 0 => {
                granular(asked, |asked| raised(asked, 0, RESERVED))
            }
            _ => asked,
        }
    }),
    ("22 and 23: E2H never set", |asked| {
        hyp(asked, |asked| without(asked, E2H))
    }),
    ("22 and 23: E2H always set", |asked| {
        hyp(asked, |asked| given(asked, E2H))
    }),
    ("22 and 23: Hyp not asked", |asked| {
        hyp(asked, |asked| given(asked, HYP))
    }),
    ("S1P not asked", |asked| {
        granular(asked, |asked| given(asked, S1P))
    }),
    ("2A: S2P not asked", |asked| match asked.low & 0xFF {
        0x2A => granular(asked, |asked| given(asked, S2P)),
        _ => asked,
    }),
    ("Leaf not read", |asked| {
        granular(asked, |asked| cleared(asked, 0, 1))
    }),
    ("Leaf always set", |asked| {
        granular(asked, |asked| raised(asked, 0, 1))
    }),
    ("a wide ASID narrowed", |asked| {
        granular(asked, |asked| match asked.has(ASID16) {
            true => asked,
            false => cleared(asked, 0xFF << 56, 0),
        })
    }),
    ("a wide VMID narrowed", |asked| {
        granular(asked, |asked| match asked.has(VMID16) {
            true => asked,
            false => cleared(asked, 0xFF << 40, 0),
        })
    }),
    ("wide ASIDs and VMIDs taken", |asked| {
        granular(asked, |asked| given(asked, ASID16 | VMID16))
    }),
    ("VMID not Reserved without S2P", |asked| {
        match asked.low & 0xFF {
            0x12 | 0x13 if !asked.has(S2P) => {
                granular(asked, |asked| cleared(asked, 0xFFFF << 32, 0))
            }
            _ => asked,
        }
    }),
    ("other codes may have TG", |asked| match asked.low & 0xFF {
        0x10 | 0x11 | 0x20 | 0x21 | 0x28 | 0x30 => cleared(asked, LOW, HIGH),
        _ => asked,
    }),
];

const TOLD: [(&str, fn(&Asked, u64) -> u64); 10] = [
    ("bad told as Reserved", |asked, right| {
        told(asked, right, 4, 3)
    }),
    ("bad told as absent", |asked, right| {
        told(asked, right, 4, 2)
    }),
    (
        "TTL 1 of 16 KiB told as Reserved",
        |asked, right| match asked.fields() {
            Some(Fields { tg: 2, ttl: 1, .. }) => told(asked, right, 4, 3),
            _ => right,
        },
    ),
    ("no RIL told as absent", |asked, right| {
        match !asked.has(RIL) && asked.low & LOW | asked.high & HIGH != 0 {
            true => told(asked, right, 3, 2),
            false => right,
        }
    }),
    ("TG without RIL told as absent", |asked, right| {
        match !asked.has(RIL) && asked.high & TG != 0 {
            true => told(asked, right, 3, 2),
            false => right,
        }
    }),
    ("bad without RIL", |asked, right| {
        match !asked.has(RIL) && bad(asked) {
            true => told(asked, right, 3, 4),
            false => right,
        }
    }),
    ("TG 0 told as bad", |asked, right| match asked.fields() {
        Some(Fields { tg: 0, .. }) if asked.low & LOW | asked.high & HIGH != 0 => {
            told(asked, right, 3, 4)
        }
        _ => right,
    }),
    (
        "TTL128 without TTL told as bad",
        |asked, right| match asked.fields() {
            Some(Fields {
                tg: 1..,
                ttl: 0,
                ttl128: true,
                ..
            }) => told(asked, right, 3, 4),
            _ => right,
        },
    ),
    ("bad before Reserved", |asked, right| {
        match asked.has(RIL) && bad(asked) {
            true => told(asked, right, 3, 4),
            false => right,
        }
    }),
    ("bad before absent", |asked, right| {
        match asked.has(RIL) && bad(asked) {
            true => told(asked, right, 2, 4),
            false => right,
        }
    }),
];

const SCANS: [(&str, fn(Row, &Asked) -> Row); 8] = [
    ("take EL2 rows for guests'", |row, asked| {
        match asked.own() {
            false => unmarked(row, EL2),
            true => row,
        }
    }),
    ("take EL2-E2H rows for guests'", |row, asked| {
        match asked.own() {
            false => unmarked(row, EL2_E2H),
            true => row,
        }
    }),
    ("take guests' rows for EL2", |row, asked| {
        match asked.own() && guest(&row) {
            true if asked.has(E2H) => Row(marked(row.0, EL2_E2H)),
            true => Row(marked(row.0, EL2)),
            false => row,
        }
    }),
    ("spare global rows", |row, asked| match asked.low & 0xFF {
        0x12 | 0x22 => hidden(row, row.global() && row.asid() != asked.low >> 48),
        _ => hidden(row, row.global()),
    }),
    ("compare no ASID", |row, asked| {
        let Row([word, one, two, three]) = row;
        let spaces = row.kind() == Kind::Stage1 && word & EL2 == 0;
        match spaces {
            true => Row([
                word & !(0xFFFF << 32) | asked.low >> 48 << 32,
                one,
                two,
                three,
            ]),
            false => row,
        }
    }),
    ("spare tables", |row, _| hidden(row, !row.last_level())),
    ("spare upper rows", |row, _| {
        hidden(row, row.input() >> 63 == 1)
    }),
    ("2A takes stage 1 rows", |row, asked| {
        let Row([word, one, two, three]) = row;
        let lower = guest(&row) && two >> 63 == 0;
        match asked.low & 0xFF {
            // Without ASID, global and hints.
            0x2A if lower => Row([
                word & !(0xFFFF << 32 | 1 << 4 | 0x3F << 54) | 1 << 1,
                one,
                two,
                three,
            ]),
            _ => row,
        }
    }),
];

pub fn all() -> Vec<(String, Fault)> {
    let mut all = Vec::new();
    for (name, read) in READS {
        all.push((format!("ranges: {name}"), Fault::Reads(read)));
    }
    for code in RANGED {
        for (name, read) in EACH {
            all.push((format!("{code:02X}: {name}"), Fault::Of(code, read)));
        }
    }
    for (name, told) in TOLD {
        all.push((format!("ranges: {name}"), Fault::Told(told)));
    }
    for (name, scan) in SCANS {
        all.push((format!("ranges {name}"), Fault::Scans(scan)));
    }
    all
}

fn given(asked: Asked, bits: u64) -> Asked {
    Asked {
        features: asked.features | bits,
        ..asked
    }
}

fn without(asked: Asked, bits: u64) -> Asked {
    Asked {
        features: asked.features & !bits,
        ..asked
    }
}

fn moved(asked: Asked, place: u32) -> Asked {
    match asked.features >> place & 1 {
        0 => without(asked, RIL),
        _ => given(asked, RIL),
    }
}

fn cleared(asked: Asked, low: u64, high: u64) -> Asked {
    Asked {
        low: asked.low & !low,
        high: asked.high & !high,
        ..asked
    }
}

fn raised(asked: Asked, low: u64, high: u64) -> Asked {
    Asked {
        low: asked.low | low,
        high: asked.high | high,
        ..asked
    }
}

/// The fault for the codes that may have a range.
fn ranged(asked: Asked, fault: fn(Asked) -> Asked) -> Asked {
    match asked.fields() {
        Some(_) => fault(asked),
        None => asked,
    }
}

/// The fault for those that have a granule, under RIL.
fn granular(asked: Asked, fault: fn(Asked) -> Asked) -> Asked {
    match asked.fields() {
        Some(Fields { tg: 1.., .. }) if asked.has(RIL) => fault(asked),
        _ => asked,
    }
}

/// The same of 22 and 23.
fn hyp(asked: Asked, fault: fn(Asked) -> Asked) -> Asked {
    match asked.own() {
        true => granular(asked, fault),
        false => asked,
    }
}

/// Bits that nobody looks at, where TG is 0 and there is RIL.
fn at_none(asked: Asked, low: u64, high: u64) -> Asked {
    match asked.fields() {
        Some(Fields { tg: 0, .. }) if asked.has(RIL) => cleared(asked, low, high),
        _ => asked,
    }
}

/// TTL128 that nobody looks at beside TTL 0, at some granules.
fn no_level(asked: Asked, granules: std::ops::RangeInclusive<u64>) -> Asked {
    match asked.fields() {
        Some(Fields { tg, ttl: 0, .. }) if asked.has(RIL) && granules.contains(&tg) => {
            cleared(asked, 0, TTL128)
        }
        _ => asked,
    }
}

fn bad(asked: &Asked) -> bool {
    asked.fields().is_some_and(|fields| fields.bad())
}

/// The same with another level.
fn level(asked: Asked, ttl: u64) -> Asked {
    raised(cleared(asked, 0, TTL), 0, ttl << 8)
}

/// A bad one of the granule and level gets one that is legal.
fn bad_legal(asked: Asked, granule: u64, own: u64) -> Asked {
    match asked.fields() {
        Some(Fields { tg, ttl, .. }) if bad(&asked) && (tg, ttl) == (granule, own) => {
            level(asked, 2)
        }
        _ => asked,
    }
}

/// A level alone that counts for none.
fn level_bad(asked: Asked, granule: u64, own: u64) -> Asked {
    match asked.fields() {
        Some(Fields {
            num: 0,
            scale: 0,
            tg,
            ttl,
            ..
        }) if (tg, ttl) == (granule, own) => cleared(asked, 0, TTL | TTL128),
        _ => asked,
    }
}

/// Another reason, if it is this one of a command that may have a range.
fn told(asked: &Asked, right: u64, own: u64, other: u64) -> u64 {
    match asked.fields() {
        Some(_) if right == own => other,
        _ => right,
    }
}

fn guest(row: &Row) -> bool {
    row.kind() == Kind::Stage1 && !row.marked()
}

fn unmarked(row: Row, mark: u64) -> Row {
    let Row([word, one, two, three]) = row;
    match row.kind() == Kind::Stage1 && word & mark != 0 {
        true => Row([word & !mark, one, two, three]),
        false => row,
    }
}

/// An empty row instead, if so.
fn hidden(Row([word, one, two, three]): Row, so: bool) -> Row {
    Row([if so { 0 } else { word }, one, two, three])
}
