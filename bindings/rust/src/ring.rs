//! The indexes of a ring of 2^log2 slots: log2 + 1 bits each, the highest of them the wrap bit.

use crate::error::{demand, FieldError};

/// How many indexes there are. A log2 that no ring has gives a number of no meaning.
fn indexes(log2: u8) -> u32 {
    2u32.wrapping_shl(log2.into())
}

/// How many slots from RD up to WR.
pub(crate) fn waiting(log2: u8, rd: u32, wr: u32) -> u32 {
    wr.wrapping_sub(rd) & indexes(log2).wrapping_sub(1)
}

/// The slot of an index.
pub(crate) fn slot(log2: u8, index: u32) -> u32 {
    index & (indexes(log2) / 2).wrapping_sub(1)
}

/// What is wrong with the indexes of a ring of a good log2.
pub(crate) fn check(log2: u8, rd: u32, wr: u32) -> Result<(), FieldError> {
    demand(rd < indexes(log2), FieldError::Rd)?;
    demand(wr < indexes(log2) && waiting(log2, rd, wr) <= indexes(log2) / 2, FieldError::Wr)
}
