//! Fills of both tables.

use crate::layout::{self, REGION_WORDS, ROW_WORDS};
use crate::refusal::Refusal;
use crate::unit;

numbered! {
    /// How a fill ended.
    FillEnd {
        /// The row is in use now.
        Filled = layout::FILLED, "the row is filled";
        /// A store was due and none was left; the row is empty. Called again a fill starts from its first store.
        Cut = layout::FILL_CUT, "cut, and the row is empty";
    }
}

/// What a fill did.
#[derive(Clone, Copy, Debug, PartialEq, Eq, Hash)]
pub struct Fill {
    /// How it ended.
    pub end: FillEnd,
    /// Stores made.
    pub stores: u64,
}

impl Fill {
    fn of(end: u64, stores: u64) -> Self {
        Self { end: unit::known(end), stores }
    }
}

/// Fills an empty row, counted from 0, with at most `allowance` stores; it makes [`layout::ROW_WORDS`]. No run may come
/// between the walk that found the row and this.
///
/// ```
/// use tahvenno::*;
/// let mut kept = [0; kept_words(2)];
/// empty(&mut kept, 0, true)?;
/// let row = Row::Ste(Ste { stream: 5, vmid: 0, config: Config::Bypass, overrides: Overrides::NONE });
/// let fill = fill(&mut kept, 1, &row.words()?, FILL_STORES)?;
/// assert_eq!(fill.end, FillEnd::Filled);
/// # Ok::<(), Box<dyn std::error::Error>>(())
/// ```
pub fn fill(kept: &mut [u64], row: usize, words: &[u64; ROW_WORDS], allowance: u64) -> Result<Fill, Refusal> {
    let [end, stores, ..] = unit::fill(kept, row as u64, words, allowance)?;
    Ok(Fill::of(end, stores))
}

/// Fills an empty row of the second table, counted from 0, with at most `allowance` stores; it makes
/// [`layout::REGION_WORDS`]. The kept memory is only checked.
///
/// ```
/// use tahvenno::*;
/// let (mut kept, mut table) = ([0; kept_words(1)], [0; table_words(1)]);
/// empty(&mut kept, 0, true)?;
/// let region = Region { size: RegionSize::Gb1, base: 1 << 30, last_level: true };
/// let fill = table_fill(&kept, &mut table, 0, &region.words()?, TABLE_FILL_STORES)?;
/// assert_eq!(fill.end, FillEnd::Filled);
/// # Ok::<(), Box<dyn std::error::Error>>(())
/// ```
pub fn table_fill(
    kept: &[u64],
    table: &mut [u64],
    row: usize,
    words: &[u64; REGION_WORDS],
    allowance: u64,
) -> Result<Fill, Refusal> {
    let [end, stores, ..] = unit::table_fill(kept, table, row as u64, words, allowance)?;
    Ok(Fill::of(end, stores))
}

/// The stores of a fill.
pub const FILL_STORES: u64 = ROW_WORDS as u64;
/// The stores of a fill of the second table.
pub const TABLE_FILL_STORES: u64 = REGION_WORDS as u64;
