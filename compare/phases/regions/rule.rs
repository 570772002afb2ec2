//! T-11 once more, over bits and pages: which commands are legal, which rows are well
//! formed, and which of them a command takes.

use crate::generate::commands::{Command, DPT};
use crate::generate::regions::Pair;

/// The pages of 4KB, 16KB, 64KB, 2MB, 32MB, 512MB, 1GB, 16GB, 64GB and 512GB.
const PAGES: [u64; 10] = [
    1,
    4,
    16,
    512,
    8_192,
    131_072,
    262_144,
    4_194_304,
    16_777_216,
    134_217_728,
];
/// Pages of the space in which regions lie.
const SPACE: u64 = 1 << 40;

/// The bits of a 73 that mean something: Leaf, SIZE and Address.
pub const LEAF: u64 = 1;
pub const SIZE: u64 = 0xF00;
pub const ADDRESS: u64 = 0x00FF_FFFF_FFFF_F000;

/// The reason why a command of the two codes is illegal; 0 if it's legal.
pub fn reason((low, high): Command, features: u64) -> u64 {
    let named = match low & 0xFF {
        0x73 => LEAF | SIZE | ADDRESS,
        _ => 0,
    };
    if features & DPT == 0 {
        2
    } else if low >> 8 != 0 || high & !named != 0 {
        3
    } else {
        0
    }
}

/// Whether two words make a row in use.
pub fn formed([word, base]: Pair) -> bool {
    let pages = PAGES.get(word as usize >> 2 & 15).copied();
    let placed =
        |pages: u64| base & 0xFFF == 0 && base >> 12 < SPACE && base >> 12 & (pages - 1) == 0;
    word & 1 == 1 && word < 64 && pages.is_some_and(placed)
}

/// Whether a command of the two codes takes a row, which may be an empty one.
pub fn due([word, base]: Pair, command: Command, features: u64) -> bool {
    let (low, high) = command;
    let legal = word != 0 && reason(command, features) == 0;
    if low & 0xFF == 0x70 {
        return legal;
    }
    let Some(&pages) = PAGES.get(high as usize >> 8 & 15) else {
        return false;
    };
    let (first, own) = (high >> 12 & (SPACE - 1), PAGES[word as usize >> 2 & 15]);
    let level = high & LEAF == 0 || word & 2 == 2;
    let whole = first & (pages - 1) == 0;
    let inside = first <= base >> 12 && (base >> 12) + own <= first + pages;
    legal && level && whole && inside
}
