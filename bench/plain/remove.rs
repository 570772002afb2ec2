//! Takes the rows in a command's scope out of the tables.

use super::allowance::{Allowance, Cut};
use super::command::Command;
use super::region::{self, Region};
use super::row::{self, Row};
use super::scope::{RegionScope, RowScope};

/// The lowest row first; those of the second table have a scope of their own.
pub fn remove(
    command: &Command,
    rows: &mut [u64],
    table: &mut [u64],
    allowance: &mut Allowance,
) -> Result<(), Cut> {
    match command {
        Command::Rows(scope) => remove_rows(scope, rows, allowance),
        Command::Regions(scope) => remove_regions(scope, table, allowance),
        Command::Prefetch | Command::Sync { .. } | Command::Nothing => Ok(()),
    }
}

fn remove_rows(scope: &RowScope, rows: &mut [u64], allowance: &mut Allowance) -> Result<(), Cut> {
    for words in rows.chunks_exact_mut(row::WORDS) {
        if Row::decode(words).is_some_and(|row| scope.holds(&row)) {
            allowance.store(&mut words[0], 0)?;
        }
    }
    Ok(())
}

fn remove_regions(
    scope: &RegionScope,
    table: &mut [u64],
    allowance: &mut Allowance,
) -> Result<(), Cut> {
    for words in table.chunks_exact_mut(region::WORDS) {
        if Region::decode(words).is_some_and(|region| scope.holds(&region)) {
            allowance.store(&mut words[0], 0)?;
        }
    }
    Ok(())
}
