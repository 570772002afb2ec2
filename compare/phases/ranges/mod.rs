//! Range invalidation (document 02, T-07).

mod bits;
pub mod cases;
mod cuts;
mod edges;
mod lengths;
mod mixes;
mod rule;
mod spaces;
mod unions;

use super::hyp::{insist, taken};
use super::{bytes, run, waiting};
use crate::checker::Checker;
use crate::generate::commands::{Command, E2H, FOUR, HYP, RIL};
use crate::generate::rows::{marked, Reach, Words, EL2, EL2_E2H, STAGE1, STAGE2};
use crate::limits::{ADDRESS, UPPER};
use rule::due;

/// Every feature, with E2H and without.
const ALL: u64 = FOUR | HYP | RIL;
const SETTINGS: [u64; 2] = [ALL, ALL | E2H];
/// The five codes; those of the hypervisor's rows at either setting of E2H.
const ASKED: [(u64, u64); 7] = [
    (0x12, ALL),
    (0x13, ALL),
    (0x2A, ALL),
    (0x22, SETTINGS[0]),
    (0x22, SETTINGS[1]),
    (0x23, SETTINGS[0]),
    (0x23, SETTINGS[1]),
];

const VMID: u64 = 3;
const ASID: u64 = 9;
const WRITE_BACK: u64 = 15;
/// One more than 31, which NUM and SCALE are at most.
const VALUES: u64 = 32;

pub fn ranges(checker: &mut Checker) {
    bits::sweeps(checker);
    edges::sweeps(checker);
    lengths::sweeps(checker);
    spaces::sweeps(checker);
    unions::sweeps(checker);
    mixes::sweeps(checker);
    cuts::sweeps(checker);
}

fn reach(kind: u64, span: u64, page: u64) -> Reach {
    Reach {
        kind,
        vmid: VMID,
        asid: ASID,
        global: false,
        span,
        page,
    }
}

/// A command of the code from the address on, which needs no more than a place to
/// take the rows of `own`.
fn from(code: u64, address: u64) -> Command {
    let (vmid, asid) = (VMID << 32, ASID << 48);
    let low = match code {
        0x12 => vmid | asid,
        0x22 => asid,
        0x23 => 0,
        _ => vmid,
    };
    let address = if code == 0x2A {
        address % ADDRESS
    } else {
        address
    };
    (low | code, address >> 12 << 12)
}

/// A row of the sort that the code takes, if there is one at the place: stage 1 has
/// both halves and stage 2 the lower one.
fn own(code: u64, features: u64, span: u64, input: u64, last: bool) -> Option<Words> {
    let kind = if code == 0x2A { STAGE2 } else { STAGE1 };
    let there = input < ADDRESS || input >= UPPER && kind == STAGE1;
    let reach = reach(kind, span, input);
    let row = match last {
        true => reach.page(0, WRITE_BACK),
        false => reach.table(),
    };
    let row = match (code, features & E2H) {
        (0x22 | 0x23, 0) => marked(row, EL2),
        (0x22 | 0x23, _) => marked(row, EL2_E2H),
        _ => row,
    };
    there.then_some(row)
}

const LAW: &str = "a command takes other rows than T-07 has it";

/// A command alone over the rows, which takes those that the rule names.
fn scoped(checker: &mut Checker, rows: &[Words], command: Command, features: u64) {
    let (gone, _) = taken(checker, rows, command, features);
    let right = rows.iter().map(|&row| due(row, command, features));
    let met = right.eq(gone);
    insist(checker, met, LAW, rows, (command, features));
}
