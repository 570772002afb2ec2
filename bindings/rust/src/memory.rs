//! How long what is lent has to be, and what it holds at the start.

use core::sync::atomic::{compiler_fence, Ordering};

use crate::control::Control;
use crate::layout::*;
use crate::recorder::EventIndex;
use crate::refusal::Refusal;

/// The words of a kept memory of so many rows, 1 to [`MAX_ROWS`].
///
/// ```
/// assert_eq!(tahvenno::kept_words(2), 9);
/// ```
pub const fn kept_words(rows: usize) -> usize {
    1 + ROW_WORDS * rows
}

/// The words of a second table of so many rows, 1 to [`MAX_REGIONS`].
///
/// ```
/// assert_eq!(tahvenno::table_words(2), 4);
/// ```
pub const fn table_words(rows: usize) -> usize {
    REGION_WORDS * rows
}

/// The bytes of a queue of 2^log2size slots, log2size 0 to [`MAX_LOG2SIZE`].
///
/// ```
/// assert_eq!(tahvenno::queue_bytes(12), 65536);
/// ```
pub const fn queue_bytes(log2size: u8) -> usize {
    SLOT_BYTES << log2size
}

/// The words of a recorder of 2^n slots, n 0 to [`MAX_EVENT_N`].
///
/// ```
/// assert_eq!(tahvenno::event_words(2), 17);
/// ```
pub const fn event_words(n: u8) -> usize {
    1 + RECORD_BYTES / size_of::<u64>() * (1 << n)
}

/// How many rows of so many words each make a length up, if 1 to `most` do.
fn rows_in(length: usize, words: usize, most: usize) -> Option<usize> {
    let rows = length / words;
    (length % words == 0 && (1..=most).contains(&rows)).then_some(rows)
}

/// Makes a kept memory empty: no row in use, and a queue of 2^log2size slots in which no command waits. A length or
/// log2size that none can have is refused as a call would refuse it, and nothing is stored.
///
/// The rows are emptied before the control word is stored, so that an old row is never left without the commands that
/// wait for it. Where that has to hold of memory that survives a cut, the caller empties each row of it in use by
/// [`empty_row`] first and waits until the stores have arrived.
///
/// ```
/// use tahvenno::{empty, kept_words, layout, Refusal};
/// let mut kept = [u64::MAX; kept_words(3)];
/// empty(&mut kept, 8, true)?;
/// assert_eq!(tahvenno::state(&kept)?.used, 0);
/// assert_eq!(empty(&mut kept, 13, true), Err(Refusal::ControlWord));
/// # Ok::<(), Refusal>(())
/// ```
pub fn empty(kept: &mut [u64], log2size: u8, enabled: bool) -> Result<(), Refusal> {
    let rows = rows_in(kept.len().wrapping_sub(1), ROW_WORDS, MAX_ROWS).ok_or(Refusal::KeptLength)?;
    let control = Control { log2size, enabled, ..Control::default() };
    let word = control.word().map_err(|_| Refusal::ControlWord)?;
    for row in 0..rows {
        kept[kept_words(row)] = 0;
    }
    compiler_fence(Ordering::SeqCst);
    kept[0] = word;
    Ok(())
}

/// Makes a second table empty, or refuses its length as a call would.
///
/// ```
/// use tahvenno::{empty_table, regions, table_words};
/// let mut table = [u64::MAX; table_words(2)];
/// empty_table(&mut table)?;
/// assert!(regions(&table).all(|words| words[0] == 0));
/// # Ok::<(), tahvenno::Refusal>(())
/// ```
pub fn empty_table(table: &mut [u64]) -> Result<(), Refusal> {
    let rows = rows_in(table.len(), REGION_WORDS, MAX_REGIONS).ok_or(Refusal::TableLength)?;
    (0..rows).try_for_each(|row| empty_region(table, row))
}

/// Makes a recorder of 2^n slots empty, n by its length, or refuses that as a call would. What was recorded is lost.
///
/// ```
/// use tahvenno::{empty_recorder, event_words, Refusal};
/// assert_eq!(empty_recorder(&mut [u64::MAX; event_words(3)]), Ok(()));
/// assert_eq!(empty_recorder(&mut [0; 8]), Err(Refusal::EventsLength));
/// ```
pub fn empty_recorder(events: &mut [u64]) -> Result<(), Refusal> {
    let word = (0..=MAX_EVENT_N as u8)
        .find(|&n| event_words(n) == events.len())
        .and_then(|n| EventIndex { n, ..EventIndex::default() }.word().ok());
    events.first_mut().zip(word).map(|(index, word)| *index = word).ok_or(Refusal::EventsLength)
}

/// The words of each row of a kept memory, from row 0 on; [`crate::Row::parse`] takes them apart.
///
/// ```
/// use tahvenno::*;
/// let mut kept = [0; kept_words(2)];
/// empty(&mut kept, 0, true)?;
/// fill(&mut kept, 0, &Row::CdBranch(CdBranch { stream: 5 }).words()?, FILL_STORES)?;
/// assert_eq!(rows(&kept).position(|words| words[0] == 0), Some(1)); // the next to fill
/// # Ok::<(), Box<dyn std::error::Error>>(())
/// ```
pub fn rows(kept: &[u64]) -> impl DoubleEndedIterator<Item = &[u64; ROW_WORDS]> + ExactSizeIterator {
    whole_rows(kept.get(1..).unwrap_or_default())
}

/// The words of each row of a second table, from row 0 on; [`crate::Region::parse`] takes them apart.
///
/// ```
/// assert_eq!(tahvenno::regions(&[0; tahvenno::table_words(3)]).count(), 3);
/// ```
pub fn regions(table: &[u64]) -> impl DoubleEndedIterator<Item = &[u64; REGION_WORDS]> + ExactSizeIterator {
    whole_rows(table)
}

fn whole_rows<const WORDS: usize>(words: &[u64]) -> impl DoubleEndedIterator<Item = &[u64; WORDS]> + ExactSizeIterator {
    words.chunks_exact(WORDS).map(|row| row.first_chunk().expect("a chunk is whole"))
}

/// Empties a row of a kept memory, counted from 0, by one store between calls: a monitor may, and a later access walks.
///
/// ```
/// use tahvenno::{empty_row, kept_words, Refusal};
/// let mut kept = [0; kept_words(2)];
/// assert_eq!(empty_row(&mut kept, 1), Ok(()));
/// assert_eq!(empty_row(&mut kept, 2), Err(Refusal::NoSuchRow));
/// ```
pub fn empty_row(kept: &mut [u64], row: usize) -> Result<(), Refusal> {
    let rows = rows(kept).len();
    let first = (row < rows).then(|| &mut kept[kept_words(row)]);
    first.map(|word| *word = 0).ok_or(Refusal::NoSuchRow)
}

/// Empties a row of a second table, counted from 0, by one store between calls.
///
/// ```
/// use tahvenno::{empty_region, table_words, Refusal};
/// let mut table = [0; table_words(2)];
/// assert_eq!(empty_region(&mut table, 1), Ok(()));
/// assert_eq!(empty_region(&mut table, 2), Err(Refusal::NoSuchRow));
/// ```
pub fn empty_region(table: &mut [u64], row: usize) -> Result<(), Refusal> {
    let rows = regions(table).len();
    let first = (row < rows).then(|| &mut table[table_words(row)]);
    first.map(|word| *word = 0).ok_or(Refusal::NoSuchRow)
}
