//! A row of the second table.

use super::bits::{bit, field, is_multiple, mask};

pub const WORDS: usize = 2;

/// Bases are below this power of two.
const ADDRESS_BITS: u32 = 52;
/// The sizes by their code, as powers of two.
const SIZES: [u32; 10] = [12, 14, 16, 21, 25, 29, 30, 34, 36, 39];

/// None for the codes that are Reserved.
pub fn log2_of(code: u64) -> Option<u32> {
    SIZES.get(code as usize).copied()
}

pub struct Region {
    pub last_level: bool,
    pub log2: u32,
    pub base: u64,
}

impl Region {
    /// None if it is empty, or has no size.
    pub fn decode(words: &[u64]) -> Option<Region> {
        let &[w0, base] = words else {
            return None;
        };
        if w0 == 0 {
            return None;
        }
        Some(Region {
            last_level: bit(w0, 1),
            log2: log2_of(field(w0, 5, 2))?,
            base,
        })
    }
}

pub fn well_formed(words: &[u64]) -> bool {
    let w0 = words[0];
    if w0 == 0 {
        return true;
    }
    let Some(region) = Region::decode(words) else {
        return false;
    };
    bit(w0, 0)
        && w0 & !mask(5, 0) == 0
        && region.base >> ADDRESS_BITS == 0
        && is_multiple(region.base, region.log2)
}
