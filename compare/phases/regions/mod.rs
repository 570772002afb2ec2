//! Device permission table maintenance (document 02, T-11).

mod bits;
pub mod cases;
mod cuts;
mod fills;
mod forms;
mod limits;
mod mixes;
mod orders;
mod others;
mod places;
mod rule;
mod sizes;

use super::{bytes, run, waiting};
use crate::call::Call;
use crate::checker::Checker;
use crate::generate::commands::{Command, DPT, E2H, FOUR, HYP, RIL};
use crate::generate::images::with_rows;
use crate::generate::regions::{region, with_regions, Pair, SIZES};
use crate::generate::rows::{cd_table, ste, Reach, Words, STAGE1, STAGE2};
use crate::limits::ADDRESS;
use rule::due;

/// Every feature, with E2H and without.
const ALL: u64 = FOUR | HYP | RIL | DPT;
const SETTINGS: [u64; 2] = [ALL, ALL | E2H];
/// The size codes that a command may have; those from 10 on are Reserved.
const CODES: u64 = 16;
/// Those of rows.
const ROW_CODES: u64 = SIZES.len() as u64;
/// A place that is aligned to every size, with neighbours on both sides.
const MIDDLE: u64 = 0x5_5500 << 28;

pub fn regions(checker: &mut Checker) {
    bits::sweeps(checker);
    sizes::sweeps(checker);
    places::sweeps(checker);
    forms::sweeps(checker);
    orders::sweeps(checker);
    limits::sweeps(checker);
    fills::sweeps(checker);
    others::sweeps(checker);
    mixes::sweeps(checker);
    cuts::sweeps(checker);
}

/// The bytes of a size code that rows have.
fn size(code: u64) -> u64 {
    1 << SIZES[code as usize]
}

/// Rows of the kept memory at an address, so that one who looked there would find
/// some: a stage 1 page and a table, a stage 2 page, and two of a stream.
fn bystanders(address: u64) -> Vec<Words> {
    let reach = |kind| Reach {
        kind,
        vmid: 0,
        asid: 0,
        global: true,
        span: 12,
        page: address % ADDRESS,
    };
    let second = Reach {
        global: false,
        ..reach(STAGE2)
    };
    vec![
        reach(STAGE1).page(0, 15),
        reach(STAGE1).table(),
        second.page(0, 15),
        ste(0, 0, 4, 0),
        cd_table(0),
    ]
}

/// A command alone over the rows, with bystanders in the kept memory: which of them it
/// takes, and its answer.
fn taken(
    checker: &mut Checker,
    rows: &[Pair],
    command: Command,
    features: u64,
) -> (Vec<bool>, [u64; 8]) {
    let mut kept = with_rows(waiting(0, 1), &bystanders(command.1));
    let mut table = with_regions(rows);
    let queue = bytes(&[command]);
    let reply = checker.both(&mut kept, &mut table, run(&queue, features, u64::MAX));
    let gone = |row: usize| rows[row][0] != 0 && table[2 * row] == 0;
    ((0..rows.len()).map(gone).collect(), reply.answer)
}

/// Stops the program unless the law holds of a command over the rows.
fn insist(
    checker: &mut Checker,
    holds: bool,
    law: &str,
    rows: &[Pair],
    (command, features): (Command, u64),
) {
    if holds {
        return;
    }
    let before = with_rows(waiting(0, 1), &bystanders(command.1));
    let (mut kept, mut table) = (before.clone(), with_regions(rows));
    let queue = bytes(&[command]);
    let call = run(&queue, features, u64::MAX);
    let reply = checker.both(&mut kept, &mut table, call);
    checker.insist(false, law, &before, call, (reply, &kept));
}

const LAW: &str = "a command takes other regions than T-11 has it";

/// A command alone over the rows, which takes those that the rule names.
fn scoped(checker: &mut Checker, rows: &[Pair], command: Command, features: u64) {
    let (gone, _) = taken(checker, rows, command, features);
    let right = rows.iter().map(|&row| due(row, command, features));
    let met = right.eq(gone);
    insist(checker, met, LAW, rows, (command, features));
}

/// The rows of the code, last-level and not, at the places that are within the
/// address space.
fn at(code: u64, places: &[Option<u64>]) -> Vec<Pair> {
    let inside = places.iter().flatten().filter(|&&place| place < ADDRESS);
    inside
        .flat_map(|&place| [true, false].map(|last| region(code, last, place)))
        .collect()
}

/// A fill of the second table.
fn fill(row: u64, words: Pair, allowance: u64) -> Call<'static> {
    Call::TableFill {
        row,
        words,
        allowance,
    }
}
