//! Filling a row of the second table (document 02, T-11).

use super::fill::Filled;
use super::image;
use super::refusal::Refusal;
use super::region::{self, Region};

/// Stores the base and then word 0, so that a cut leaves the row empty. The kept
/// memory is looked at and not stored to.
pub fn table_fill(
    kept: &[u64],
    table: &mut [u64],
    row: u64,
    words: [u64; 2],
    allowance: u64,
) -> Result<Filled, Refusal> {
    image::accept(kept)?;
    region::accept(table)?;
    // A number too large for the index is above every row as well.
    let index = usize::try_from(row).map_err(|_| Refusal::RowNumber)?;
    let present = region::regions(table).nth(index);
    if present.ok_or(Refusal::RowNumber)?.used() {
        return Err(Refusal::RowInUse);
    }
    if !Region(words).sound() {
        return Err(Refusal::RowWords);
    }
    let stores = allowance.min(2);
    for word in [1, 0].into_iter().take(stores as usize) {
        table[2 * index + word] = words[word];
    }
    Ok(Filled {
        whole: stores == 2,
        stores,
    })
}
