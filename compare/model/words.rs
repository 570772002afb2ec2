//! Numbered bits of 64-bit words.

const fn ones(high: u32, low: u32) -> u64 {
    u64::MAX >> (63 + low - high)
}

/// Bits `high` down to `low` of a word, as a number.
pub const fn part(word: u64, high: u32, low: u32) -> u64 {
    (word >> low) & ones(high, low)
}

/// One bit of a word.
pub const fn bit(word: u64, place: u32) -> bool {
    part(word, place, place) == 1
}

/// The word with bits `high` down to `low` exchanged for `value`.
pub const fn with_part(word: u64, high: u32, low: u32, value: u64) -> u64 {
    let mask = ones(high, low) << low;
    (word & !mask) | ((value << low) & mask)
}
