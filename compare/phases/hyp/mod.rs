//! The hypervisor's own mappings (document 02, T-05).

mod bits;
pub mod cases;
mod contained;
mod cuts;
mod fills;
mod forms;
mod scopes;
mod transactions;

use super::{bytes, run, waiting};
use crate::checker::Checker;
use crate::generate::commands::{Command, E2H, FOUR, HYP};
use crate::generate::images::with_rows;
use crate::generate::rows::{Reach, Words, STAGE1};
use crate::model::image::place;

/// Every feature, with E2H and without.
const SETTINGS: [u64; 2] = [FOUR | HYP, FOUR | HYP | E2H];

const ASID: u64 = 9;
const PAGE: u64 = 0x20_0000;
const WRITE_BACK: u64 = 15;

pub fn hyp(checker: &mut Checker) {
    forms::sweeps(checker);
    bits::sweeps(checker);
    scopes::sweeps(checker);
    contained::sweeps(checker);
    transactions::sweeps(checker);
    fills::sweeps(checker);
    cuts::sweeps(checker);
}

/// Stage 1 with VMID 0, as the marked rows have it.
fn first(span: u64, page: u64) -> Reach {
    Reach {
        kind: STAGE1,
        vmid: 0,
        asid: ASID,
        global: false,
        span,
        page,
    }
}

/// A command alone over the rows: which of them it takes, and its answer.
pub fn taken(
    checker: &mut Checker,
    rows: &[Words],
    command: Command,
    features: u64,
) -> (Vec<bool>, [u64; 8]) {
    let mut kept = with_rows(waiting(0, 1), rows);
    let queue = bytes(&[command]);
    let reply = checker.call(&mut kept, run(&queue, features, u64::MAX));
    let gone = |row: usize| rows[row][0] != 0 && kept[place(row)] == 0;
    ((0..rows.len()).map(gone).collect(), reply.answer)
}

/// Stops the program unless the law holds of a command over the rows.
pub fn insist(
    checker: &mut Checker,
    holds: bool,
    law: &str,
    rows: &[Words],
    (command, features): (Command, u64),
) {
    if holds {
        return;
    }
    let before = with_rows(waiting(0, 1), rows);
    let mut kept = before.clone();
    let queue = bytes(&[command]);
    let call = run(&queue, features, u64::MAX);
    let reply = checker.call(&mut kept, call);
    checker.insist(false, law, &before, call, (reply, &kept));
}
