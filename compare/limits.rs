//! The limits of documents 01 and 02, for the whole program: the model refuses
//! beyond them, the generators reach them, and the phases stand on both sides of
//! them. Another size of table or queue is another number here, and nowhere else.

/// LOG2SIZE at most (T-06).
pub const LOG2SIZE: u64 = 12;
/// Rows of a table at most (T-06); at least it has one.
pub const ROWS: u64 = 1_000;

/// Rows of the second table at most (T-11); at least it has one.
pub const REGIONS: u64 = 128;

/// One more than the largest output address, and than the largest input address of
/// the lower half.
pub const ADDRESS: u64 = 1 << 52;
/// The least input address of the upper half, which ends with the 64-bit space
/// (T-04). Stage 1 rows alone have it.
pub const UPPER: u64 = ADDRESS.wrapping_neg();
/// The spans of a stage row.
pub const SPANS: std::ops::RangeInclusive<u64> = 12..=48;
/// The spans of an STE row above the last level.
pub const BLOCKS: [u64; 3] = [6, 8, 10];

/// Slots of the largest queue.
pub const SLOTS: u64 = 1 << LOG2SIZE;

/// The words of a memory with so many rows.
pub const fn words(rows: u64) -> usize {
    1 + 4 * rows as usize
}

/// The words of a second table with so many rows.
pub const fn table_words(rows: u64) -> usize {
    2 * rows as usize
}

/// The bytes of a queue.
pub const fn bytes(log2size: u64) -> usize {
    16 << log2size
}

/// The largest n of an event recorder (T-01).
pub const EVENTS: u64 = 7;

/// The words of a recorder with 2^n slots.
pub const fn event_words(n: u64) -> usize {
    1 + (4 << n)
}
