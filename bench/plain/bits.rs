//! Parts of words.

/// The bits from high down to low, both included.
pub const fn mask(high: u32, low: u32) -> u64 {
    u64::MAX >> (63 - high) & u64::MAX << low
}

/// The number that stands in these bits.
pub const fn field(word: u64, high: u32, low: u32) -> u64 {
    (word & mask(high, low)) >> low
}

pub const fn bit(word: u64, place: u32) -> bool {
    word >> place & 1 == 1
}

pub const fn is_multiple(number: u64, log2: u32) -> bool {
    number & ((1 << log2) - 1) == 0
}
