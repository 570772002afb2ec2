//! Marked rows that a transaction or refusal 11 would have found, but for the mark.

use super::super::Table;
use super::{heads, line, owned, unmarked};
use crate::answers::transaction;
use crate::call::Asked;
use crate::model::image::{place, rows};
use crate::model::row::{Regime, Row};
use crate::model::transaction::{stage1_row, stream_row, Outcome};

const REGIMES: [&str; 3] = ["guest", "EL2", "E2H"];
const MARKED: [&str; 3] = ["EL2", "E2H", "global E2H"];
/// A transaction was answered by a higher row, or missed.
const WAYS: [&str; 2] = ["passed by", "missed"];

#[derive(Default)]
pub struct Lookups {
    asked: [[u64; WAYS.len()]; MARKED.len()],
    /// By the new row, then by the old one.
    filled: [[u64; REGIMES.len()]; REGIMES.len()],
}

impl Lookups {
    pub fn asked(&mut self, kept: &[u64], asked: Asked) {
        let ste = stream_row(kept, asked.stream.into());
        let Some(ste) = ste.filter(|ste| matches!(ste.config(), 5 | 7)) else {
            return;
        };
        let asked = transaction(asked);
        let right = stage1_row(kept, &ste, &asked);
        for (class, counts) in self.asked.iter_mut().enumerate() {
            let of_class =
                |row: &Row| owned(row) && regime(row) + usize::from(row.global()) == class + 1;
            if !rows(kept).any(|row| of_class(&row)) {
                continue;
            }
            let mut seen = kept.to_vec();
            for (number, row) in rows(kept).enumerate().filter(|(_, row)| of_class(row)) {
                seen[place(number)] = unmarked(&row).0[0];
            }
            let other = stage1_row(&seen, &ste, &asked);
            match (other == right, right) {
                (false, Ok(_)) => counts[0] += 1,
                (false, Err(Outcome::MissStage1)) => counts[1] += 1,
                _ => (),
            }
        }
    }

    /// A fill that was carried out.
    pub fn filled(&mut self, before: &[u64], new: Row) {
        for old in rows(before).filter(Row::used) {
            let met = unmarked(&new).doubles(&unmarked(&old));
            self.filled[regime(&new)][regime(&old)] += u64::from(met);
        }
    }

    pub fn print(&self, table: &mut Table) {
        heads("Not answering", &WAYS);
        for (name, counts) in MARKED.iter().zip(&self.asked) {
            line(table, name, counts.iter().map(|&count| (count, true)));
        }
        heads("No 11, old", &REGIMES);
        for (new, counts) in self.filled.iter().enumerate() {
            let cell = |old: usize| (counts[old], (new, old) != (0, 0));
            line(table, REGIMES[new], (0..REGIMES.len()).map(cell));
        }
    }
}

fn regime(row: &Row) -> usize {
    match row.regime() {
        Some(Regime::El2) => 1,
        Some(Regime::El2E2h) => 2,
        _ => 0,
    }
}
