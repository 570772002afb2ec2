//! What every call does first: is it lent a kept memory, and a second table?

use super::control::Control;
use super::refusal::Refusal;
use super::{form, region, row};

const MAX_ROWS: usize = 1000;
const MAX_REGIONS: usize = 128;

pub fn check(kept: &[u64]) -> Result<Control, Refusal> {
    let Some((control, rows)) = kept.split_first() else {
        return Err(Refusal::Length);
    };
    if !has_rows(rows, row::WORDS, MAX_ROWS) {
        return Err(Refusal::Length);
    }
    let control = Control::decode(*control).ok_or(Refusal::Control)?;
    let mut rows = rows.chunks_exact(row::WORDS);
    match rows.position(|words| !form::well_formed(words)) {
        Some(place) => Err(Refusal::Row(place)),
        None => Ok(control),
    }
}

pub fn check_table(table: &[u64]) -> Result<(), Refusal> {
    if !has_rows(table, region::WORDS, MAX_REGIONS) {
        return Err(Refusal::TableLength);
    }
    let mut rows = table.chunks_exact(region::WORDS);
    match rows.position(|words| !region::well_formed(words)) {
        Some(place) => Err(Refusal::Region(place)),
        None => Ok(()),
    }
}

fn has_rows(words: &[u64], each: usize, most: usize) -> bool {
    words.len() % each == 0 && (1..=most).contains(&(words.len() / each))
}
