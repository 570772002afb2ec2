//! Filling a row (document 01, One run; document 02, T-02 and T-05).

use super::image;
use super::refusal::Refusal;
use super::row::Row;

/// Whether all words were stored, and how many were.
#[derive(Clone, Copy, Debug, PartialEq, Eq)]
pub struct Filled {
    pub whole: bool,
    pub stores: u64,
}

/// Stores words 1, 2, 3 and then 0, so that a cut leaves the row empty.
pub fn fill(
    kept: &mut [u64],
    row: u64,
    words: [u64; 4],
    allowance: u64,
) -> Result<Filled, Refusal> {
    image::accept(kept)?;
    // A number too large for the index is above every N as well.
    let index = usize::try_from(row).map_err(|_| Refusal::RowNumber)?;
    let present = image::rows(kept).nth(index).ok_or(Refusal::RowNumber)?;
    if present.used() {
        return Err(Refusal::RowInUse);
    }
    let new = Row(words);
    if !new.sound() {
        return Err(Refusal::RowWords);
    }
    if image::rows(kept).any(|old| new.doubles(&old)) {
        return Err(Refusal::Doubled);
    }
    let stores = allowance.min(4);
    for word in [1, 2, 3, 0].into_iter().take(stores as usize) {
        kept[image::place(index) + word] = words[word];
    }
    Ok(Filled {
        whole: stores == 4,
        stores,
    })
}
