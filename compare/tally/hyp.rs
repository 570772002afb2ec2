//! What became of marked rows, and of the commands for them (document 02, T-05).

mod forms;
mod lookups;
mod scopes;

use super::Table;
use crate::call::{Call, Reply};
use crate::model::image::rows;
use crate::model::row::{Regime, Row};
use forms::Forms;
use lookups::Lookups;
use scopes::Scopes;

#[derive(Default)]
pub struct Hyp {
    forms: Forms,
    scopes: Scopes,
    lookups: Lookups,
}

impl Hyp {
    /// A call with the memory before it and after.
    pub fn count(&mut self, before: &[u64], call: &Call, reply: &Reply, after: &[u64]) {
        match (call, reply.number) {
            (_, 3) => {
                let lowest = rows(before).nth(reply.answer[0] as usize);
                lowest
                    .into_iter()
                    .for_each(|row| self.forms.refused(row, 0));
            }
            (Call::Fill { words, .. }, 9) => self.forms.refused(Row(*words), 1),
            (Call::Fill { words, .. }, 0) => {
                let cut = reply.answer[0] as usize;
                self.forms.accepted(&Row(*words), 1 + cut);
                self.lookups.filled(before, Row(*words));
            }
            (Call::State, 0) => rows(before).for_each(|row| self.forms.accepted(&row, 0)),
            (
                Call::Run {
                    queue, features, ..
                },
                0,
            ) => self.scopes.ran(before, (queue, *features), reply, after),
            (Call::Translate(asked), 0) => self.lookups.asked(before, *asked),
            _ => (),
        }
    }

    pub(super) fn print(&self, table: &mut Table) {
        self.forms.print(table);
        self.scopes.print(table);
        self.lookups.print(table);
    }
}

const MARKS: u64 = 0b11 << 11;
const GLOBAL: u64 = 1 << 4;

/// The row with some bits of word 0 as they are given.
fn with(row: &Row, bits: u64, value: u64) -> Row {
    let mut row = *row;
    row.0[0] = row.0[0] & !bits | value;
    row
}

fn unmarked(row: &Row) -> Row {
    with(row, MARKS, 0)
}

fn owned(row: &Row) -> bool {
    row.used() && matches!(row.regime(), Some(Regime::El2 | Regime::El2E2h))
}

fn heads(title: &str, heads: &[&str]) {
    print!("\n  {title:<14}");
    heads.iter().for_each(|head| print!("{head:>11}"));
    println!();
}

fn line(table: &mut Table, name: &str, cells: impl Iterator<Item = (u64, bool)>) {
    print!("  {name:<14}");
    cells.for_each(|(count, wanted)| print!("  {}", table.cell(count, wanted)));
    println!();
}
