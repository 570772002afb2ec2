//! A fill of an empty row.

use super::allowance::{Allowance, Cut};
use super::double::doubles;
use super::form::well_formed;
use super::image;
use super::refusal::Refusal;
use super::row::{self, Row};

pub struct Report {
    pub cut: bool,
    pub stores: u64,
}

pub fn fill(
    kept: &mut [u64],
    place: u64,
    words: [u64; row::WORDS],
    allowance: u64,
) -> Result<Report, Refusal> {
    image::check(kept)?;
    let rows = &mut kept[1..];
    if place >= (rows.len() / row::WORDS) as u64 {
        return Err(Refusal::NoSuchRow);
    }
    let first = row::WORDS * place as usize;
    if rows[first] != 0 {
        return Err(Refusal::RowInUse);
    }
    let new = Row::decode(&words).ok_or(Refusal::BadWords)?;
    if !well_formed(&words) {
        return Err(Refusal::BadWords);
    }
    let mut used = rows.chunks_exact(row::WORDS).filter_map(Row::decode);
    if used.any(|old| doubles(&new, &old)) {
        return Err(Refusal::Doubled);
    }
    let mut allowance = Allowance::new(allowance);
    let stored = store(&mut rows[first..], words, &mut allowance);
    Ok(Report {
        cut: stored.is_err(),
        stores: allowance.made,
    })
}

/// Word 0 comes last: until then the row is empty.
fn store(row: &mut [u64], words: [u64; row::WORDS], allowance: &mut Allowance) -> Result<(), Cut> {
    for place in [1, 2, 3, 0] {
        allowance.store(&mut row[place], words[place])?;
    }
    Ok(())
}
