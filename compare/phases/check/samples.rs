//! A command of each code, the row that it takes, and images around them.

use super::{bytes, Image};
use crate::generate::commands::{Command, E2H};
use crate::generate::images::with_rows;
use crate::generate::regions::{about, region, with_regions, Pair};
use crate::generate::rows::{
    cd, cd_table, marked, ste, ste_block, Reach, Words, EL2, EL2_E2H, STAGE1, STAGE2,
};
use crate::model::control::Control;
use crate::phases::waiting;

pub const STREAM: u64 = 0x77;
pub const SUBSTREAM: u64 = 5;
pub const VMID: u64 = 3;
pub const ASID: u64 = 9;
pub const PAGE: u64 = 0x5000;
/// The stream of rows that no command here is about.
pub const BYSTANDER: u64 = 0xFFFF_0000;

/// The codes of invalidations, in the order of their numbers.
pub const FIT: [u64; 17] = [
    0x03, 0x04, 0x05, 0x06, 0x10, 0x11, 0x12, 0x13, 0x20, 0x21, 0x22, 0x23, 0x28, 0x2A, 0x30, 0x70,
    0x73,
];

pub fn first() -> Reach {
    Reach {
        kind: STAGE1,
        vmid: VMID,
        asid: ASID,
        global: false,
        span: 12,
        page: PAGE,
    }
}

pub fn second() -> Reach {
    Reach {
        kind: STAGE2,
        ..first()
    }
}

/// A command of the code that takes its row.
pub fn own(code: u64) -> Command {
    let (stream, vmid, asid) = (STREAM << 32, VMID << 32, ASID << 48);
    let (low, high) = match code {
        0x04 => (stream, 2),
        0x05 => (stream | SUBSTREAM << 12, 0),
        0x03 | 0x06 => (stream, 0),
        0x10 | 0x28 => (vmid, 0),
        0x11 => (vmid | asid, 0),
        0x12 => (vmid | asid, PAGE),
        0x13 | 0x2A => (vmid, PAGE),
        0x21 => (asid, 0),
        0x22 => (asid, PAGE),
        0x23 => (0, PAGE),
        0x73 => (0, about(PAGE, 0, 0).1),
        _ => (0, 0),
    };
    (code | low, high)
}

/// One of the same code that takes none of the rows here; those without fields take what
/// there is.
pub fn idle(code: u64) -> Command {
    let (low, high) = own(code);
    match code {
        0x03..=0x06 => (low ^ 1 << 63, high),
        0x10..=0x13 | 0x28 | 0x2A => (low ^ 1 << 33, high),
        0x21 | 0x22 => (low ^ 1 << 49, high ^ (code & 2) << 20),
        0x23 | 0x73 => (low, high ^ 1 << 22),
        _ => (low, high),
    }
}

/// The row of the kept memory that is taken; code 70 and 73 take none.
pub fn row(code: u64) -> Option<Words> {
    Some(match code {
        0x03 => ste(STREAM, VMID, 4, 0),
        0x04 => ste_block(STREAM, 6),
        0x05 => cd(STREAM, SUBSTREAM, ASID),
        0x06 => cd_table(STREAM),
        0x10 | 0x13 => first().table(),
        0x11 | 0x12 => first().page(0, 15),
        0x20 => marked(first().page(0, 15), EL2),
        0x21..=0x23 => marked(first().page(0, 15), EL2_E2H),
        0x28 => second().table(),
        0x2A | 0x30 => second().page(0, 15),
        _ => return None,
    })
}

/// Rows that nothing takes around the one of the code, or in its place.
pub fn around(code: u64, there: bool) -> Image {
    let bystander = cd_table(BYSTANDER);
    let (row, pair): (Words, Pair) = match row(code) {
        _ if !there => (bystander, [0, 0]),
        Some(row) => (row, [0, 0]),
        None => (bystander, region(0, true, PAGE)),
    };
    Image {
        kept: with_rows(control(code), &[bystander, row, [0, 9, 9, 9]]),
        table: with_regions(&[[0, 7], pair, [0, 0]]),
        features: super::ALL | E2H,
    }
}

/// A control word, which has no part in a check: another for each number.
pub fn control(number: u64) -> Control {
    let log2size = number % 4;
    let waits = number / 4 % (1 + (1 << log2size));
    let active = number % 3 == 0;
    Control {
        err: u64::from(active || number % 5 == 0),
        gerror: active,
        enabled: number % 2 == 0,
        pending: number % 7 < 3,
        ..waiting(log2size, waits)
    }
}

/// All those rows, one after the other, and a few regions.
pub fn hall() -> Image {
    let rows: Vec<Words> = FIT.iter().filter_map(|&code| row(code)).collect();
    let regions = [0, 1, 3, 6].map(|code| region(code, code != 1, PAGE));
    Image {
        kept: with_rows(waiting(2, 3), &rows),
        table: with_regions(&regions),
        features: super::ALL | E2H,
    }
}

/// The bytes of the codes' own commands.
pub fn batch(codes: &[u64]) -> Vec<u8> {
    bytes(&codes.iter().map(|&code| own(code)).collect::<Vec<_>>())
}
