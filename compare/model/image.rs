//! The kept memory as a whole, and refusals 1, 2 and 3 that every call tries first.

use super::control::Control;
use super::refusal::Refusal;
use super::row::Row;
use crate::limits::{words, ROWS};

/// The rows of a memory, lowest first.
pub fn rows(kept: &[u64]) -> impl Iterator<Item = Row> + '_ {
    let words = kept.get(1..).unwrap_or(&[]);
    words
        .chunks_exact(4)
        .map(|row| Row([row[0], row[1], row[2], row[3]]))
}

/// The place of a row's word 0.
pub fn place(row: usize) -> usize {
    1 + 4 * row
}

pub fn used_rows(kept: &[u64]) -> u64 {
    rows(kept).filter(Row::used).count() as u64
}

/// The control fields of an acceptable memory, or the first refusal due.
pub fn accept(kept: &[u64]) -> Result<Control, Refusal> {
    if !(words(1)..=words(ROWS)).contains(&kept.len()) || kept.len() % 4 != 1 {
        return Err(Refusal::Length);
    }
    let control = Control::well_formed(kept[0]).ok_or(Refusal::Control)?;
    match rows(kept).position(|row| !row.acceptable()) {
        Some(lowest) => Err(Refusal::Row(lowest)),
        None => Ok(control),
    }
}
