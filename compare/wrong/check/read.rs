//! Commands read otherwise, rows seen otherwise, and other features.

use super::asked::Asked;
use super::Named;
use crate::generate::commands::{Command, DPT, E2H, HYP, RIL};
use crate::generate::rows::{EL2, EL2_E2H};
use crate::model::row::{Kind, Row};

const S1P: u64 = 1;
const S2P: u64 = 1 << 1;
const ASID16: u64 = 1 << 2;
const VMID16: u64 = 1 << 3;

/// Legal commands are read so.
fn read(asked: &mut Asked, other: impl Fn(Command) -> Command) {
    let legal = asked.legal();
    asked.change(&[0, 1], |_, own| match legal(own) {
        Ok(_) => other(own),
        Err(_) => own,
    })
}

fn by_address((low, _): Command) -> bool {
    matches!(low as u8, 0x12 | 0x13 | 0x22 | 0x23 | 0x2A)
}

/// Rows of a kind are seen otherwise.
fn rows(asked: &mut Asked, kind: Kind, other: impl Fn(Row) -> Row) {
    asked.see(|row| if row.kind() == kind { other(row) } else { row })
}

pub const SEEN: &[Named<fn(&mut Asked)>] = &[
    ("Leaf is not read", |asked| {
        read(asked, |(low, high)| match low as u8 {
            0x04 => (low, high),
            _ => (low, high & !1),
        })
    }),
    ("Leaf is always set", |asked| {
        read(asked, |own| {
            if by_address(own) {
                (own.0, own.1 | 1)
            } else {
                own
            }
        })
    }),
    ("Leaf of 73 is not read", |asked| {
        read(asked, |(low, high)| match low as u8 {
            0x73 => (low, high & !1),
            _ => (low, high),
        })
    }),
    ("ranges are single addresses", |asked| {
        read(asked, |(low, high)| match by_address((low, high)) {
            true => (low & !0x1FF_F000, high & !0xF80),
            false => (low, high),
        })
    }),
    ("NUM is one less", |asked| {
        read(asked, |(low, high)| {
            let more = by_address((low, high)) && low >> 12 & 31 > 1;
            (low - (u64::from(more) << 12), high)
        })
    }),
    ("SCALE is not read", |asked| {
        read(asked, |(low, high)| {
            let some = by_address((low, high)) && low >> 12 & 31 > 0;
            (if some { low & !(31 << 20) } else { low }, high)
        })
    }),
    ("every granule is 4 KiB", |asked| {
        read(asked, |(low, high)| {
            let some = by_address((low, high)) && high >> 10 & 3 > 1 && low & 0x1FF_F000 > 0;
            (
                low,
                if some {
                    high & !(3 << 10) | 1 << 10
                } else {
                    high
                },
            )
        })
    }),
    ("12 is 13", |asked| {
        read(asked, |(low, high)| match low as u8 {
            0x12 => (low & !(0xFFFF << 48) | 0x13, high),
            _ => (low, high),
        })
    }),
    ("11 is 10", |asked| {
        read(asked, |(low, high)| match low as u8 {
            0x11 => (low & !(0xFFFF << 48) & !0xFF | 0x10, high),
            _ => (low, high),
        })
    }),
    ("28 is 10", |asked| {
        let s1p = asked.features & S1P;
        read(asked, |(low, high)| match low as u8 {
            0x28 if s1p > 0 => (low & !0xFF | 0x10, high),
            _ => (low, high),
        })
    }),
    ("73 is 70", |asked| {
        read(asked, |(low, high)| match low as u8 {
            0x73 => (0x70, 0),
            _ => (low, high),
        })
    }),
    ("04 is 03", |asked| {
        read(asked, |(low, high)| match low as u8 {
            0x04 => (low & !0xFF | 0x03, 0),
            _ => (low, high),
        })
    }),
    ("global rows are not", |asked| {
        rows(asked, Kind::Stage1, |mut row| {
            row.0[0] &= !(1 << 4);
            row
        })
    }),
    ("EL2 rows are guests'", |asked| {
        rows(asked, Kind::Stage1, |mut row| {
            row.0[0] &= !(EL2 | EL2_E2H);
            row
        })
    }),
    ("not-last-level rows are last-level", |asked| {
        rows(asked, Kind::Stage2, |mut row| {
            if !row.last_level() {
                row.0[0] |= 1 << 3 | 15 << 48;
            }
            row
        })
    }),
    ("E2H is not looked at", |asked| asked.features &= !E2H),
    ("E2H is taken for set", |asked| asked.features |= E2H),
    ("S1P is taken for there", |asked| asked.features |= S1P),
    ("S2P is taken for there", |asked| asked.features |= S2P),
    ("ASID16 is taken for there", |asked| {
        asked.features |= ASID16
    }),
    ("VMID16 is taken for there", |asked| {
        asked.features |= VMID16
    }),
    ("Hyp is taken for there", |asked| asked.features |= HYP),
    ("RIL is taken for there", |asked| asked.features |= RIL),
    ("DPT is taken for there", |asked| asked.features |= DPT),
    ("ASID16 is not looked at", |asked| asked.features &= !ASID16),
    ("VMID16 is not looked at", |asked| asked.features &= !VMID16),
    ("no features are passed", |asked| asked.features = 0),
    ("every feature is passed", |asked| asked.features |= 0x7F),
];
