//! T-07 once more, over bits and pages: which commands are legal, and which rows they
//! take.

use crate::generate::commands::{Command, E2H, HYP, RIL};
use crate::generate::rows::Words;

const S1P: u64 = 1;
const S2P: u64 = 1 << 1;
const ASID16: u64 = 1 << 2;
const VMID16: u64 = 1 << 3;

/// The places of the range's fields in the low and in the high word.
pub const LOW: u64 = 0x01F1_F000;
pub const HIGH: u64 = 0xF80;

/// Pages of the 64-bit space.
const TOP: u64 = 1 << 52;

/// NUM, SCALE, TG, TTL and TTL128.
fn fields((low, high): Command) -> [u64; 5] {
    [
        low >> 12 & 31,
        low >> 20 & 31,
        high >> 10 & 3,
        high >> 8 & 3,
        high >> 7 & 1,
    ]
}

/// The bits that a command of the code may have beside the range's.
fn named(code: u64, features: u64) -> Command {
    let vmid = match features & S2P {
        0 => 0,
        _ => 0xFFFF << 32,
    };
    let (asid, page) = (0xFFFF << 48, !0xFFF | 1);
    match code {
        0x12 => (0xFF | vmid | asid, page),
        0x13 => (0xFF | vmid, page),
        0x22 => (0xFF | asid, page),
        0x23 => (0xFF, page),
        _ => (0xFF | vmid, page & !0 >> 12),
    }
}

/// The reason why a command of the five codes is illegal; 0 if it's legal.
pub fn reason(command: Command, features: u64) -> u64 {
    let (code, has) = (command.0 & 0xFF, |bits| features & bits == bits);
    let [num, scale, tg, ttl, ttl128] = fields(command);
    let wants = match code {
        0x12 | 0x13 => S1P,
        0x2A => S2P,
        _ => S1P | HYP,
    };
    let (low, high) = named(code, features);
    let any = |fields: &[u64]| fields.iter().any(|&field| field != 0);
    let table = [
        (2, !has(wants)),
        (3, command.0 & !(low | LOW) != 0),
        (3, command.1 & !(high | HIGH) != 0),
        (3, !has(RIL) && any(&[num, scale, tg, ttl, ttl128])),
        (3, tg == 0 && any(&[num, scale, ttl, ttl128])),
        (3, tg != 0 && ttl == 0 && ttl128 != 0),
        (4, tg != 0 && !any(&[num, scale, ttl])),
        (4, tg == 2 && ttl == 1 && !any(&[num, scale])),
    ];
    let first = table.into_iter().find(|&(_, applies)| applies);
    first.map_or(0, |(reason, _)| reason)
}

/// Whether a row has a page in the command's range, or at its address.
pub fn meets([word, _, input, _]: Words, command: Command) -> bool {
    let [num, scale, tg, ..] = fields(command);
    let granule = [1, 1, 4, 16][tg as usize];
    let first = command.1 >> 12 & !(granule - 1);
    let count = match tg {
        0 => 1,
        _ => ((num + 1) << scale) * granule,
    };
    let end = TOP.min(first + count);
    let span = word >> 5 & 0x3F;
    let (page, pages) = (input >> 12, 1 << (span - 12));
    page < end && page + pages > first
}

/// Whether a command of the five codes takes a row that is in use.
pub fn due(row: Words, command: Command, features: u64) -> bool {
    let ([word, ..], (low, high)) = (row, command);
    let (code, has) = (low & 0xFF, |bits| features & bits != 0);
    let (kind, mark) = (word >> 1 & 3, word >> 11 & 3);
    let vmid = (word >> 16 ^ low >> 32) & 0xFFFF == 0;
    let asid = (word >> 32 ^ low >> 48) & 0xFFFF == 0 || word & 1 << 4 != 0;
    let wide = !has(ASID16) && low >> 56 != 0 || !has(VMID16) && low >> 40 & 0xFF != 0;
    let sort = match (code, kind, mark) {
        (0x12, 2, 0) => vmid && asid,
        (0x13, 2, 0) => vmid,
        (0x2A, 3, 0) => vmid,
        (0x22 | 0x23, 2, 1) => !has(E2H),
        (0x22, 2, 2) => has(E2H) && asid,
        (0x23, 2, 2) => has(E2H),
        _ => false,
    };
    let level = high & 1 == 0 || word & 1 << 3 != 0;
    word != 0 && reason(command, features) == 0 && !wide && sort && level && meets(row, command)
}
