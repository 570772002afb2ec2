//! Rows that a run removes, at the last place and elsewhere, one or all.

use super::{bytes, first, places, second, sizes, table, waiting, AS_IT_COMES};
use super::{ASID, MIDDLE, OUTPUT, PAGE, STAGE1_PAYLOAD, STREAM, SUBSTREAM, VMID, WRITE_BACK};
use crate::call::Call;
use crate::checker::Checker;
use crate::generate::commands::KNOWN;
use crate::generate::images::with_rows;
use crate::generate::ranges::Range;
use crate::generate::rows::{cd, cd_table, marked, ste, ste_block, Words, EL2, EL2_E2H};
use crate::limits::ROWS;

pub fn sweeps(checker: &mut Checker) {
    checker.phase("limits: rows that are removed");
    for rows in 1..=ROWS {
        removed(checker, rows, rows - 1, &[u64::MAX]);
    }
    for rows in sizes() {
        for place in places(rows) {
            removed(checker, rows, place, &[0, 1, 2, u64::MAX]);
        }
        all_removed(checker, rows);
    }
}

/// A command of each code, and a row in its scope; some also with a range.
fn scopes() -> Vec<((u64, u64), Words)> {
    let range = Range::new(1, 1, 0);
    let (stream, vmid) = (STREAM << 32, VMID << 32);
    let (asid, substream) = (ASID << 48, SUBSTREAM << 12);
    let page1 = first().page(MIDDLE, STAGE1_PAYLOAD);
    let page2 = second(PAGE).page(OUTPUT, WRITE_BACK);
    vec![
        ((0x03 | stream, 1), ste(STREAM, VMID, 7, AS_IT_COMES)),
        ((0x03 | stream, 1), cd_table(STREAM)),
        ((0x04 | stream, 2), ste_block(STREAM, 6)),
        ((0x04 | stream, 6), cd(STREAM, SUBSTREAM, ASID)),
        ((0x05 | stream | substream, 1), cd(STREAM, SUBSTREAM, ASID)),
        ((0x05 | stream, 0), cd_table(STREAM)),
        ((0x06 | stream, 0), cd(STREAM, SUBSTREAM, ASID)),
        ((0x10 | vmid, 0), first().table()),
        ((0x11 | vmid | asid, 0), page1),
        ((0x12 | vmid | asid, PAGE | 1), page1),
        ((0x13 | vmid, PAGE), first().table()),
        ((0x20, 0), marked(page1, EL2)),
        ((0x21 | asid, 0), marked(page1, EL2_E2H)),
        ((0x22 | asid, PAGE | 1), marked(page1, EL2_E2H)),
        ((0x23, PAGE), marked(first().table(), EL2_E2H)),
        ((0x28 | vmid, 0), page1),
        ((0x28 | vmid, 0), second(PAGE).table()),
        ((0x2A | vmid, PAGE | 1), page2),
        (range.over((0x12 | vmid | asid, 0)), page1),
        (range.over((0x23, 0)), marked(page1, EL2_E2H)),
        (range.over((0x2A | vmid, PAGE)), second(PAGE).table()),
        ((0x30, 0), page1),
        ((0x30, 0), page2),
    ]
}

fn run(checker: &mut Checker, kept: &mut [u64], command: (u64, u64), allowance: u64) {
    let queue = bytes(&[command]);
    let call = Call::Run {
        queue: &queue,
        features: KNOWN,
        allowance,
    };
    checker.call(kept, call);
}

/// One row in scope.
fn removed(checker: &mut Checker, rows: u64, place: u64, allowances: &[u64]) {
    for (command, row) in scopes() {
        for &allowance in allowances {
            let mut kept = with_rows(waiting(0, 1), &table(rows, &[(place, row)]));
            run(checker, &mut kept, command, allowance);
        }
    }
}

/// Every row in scope, cut at both ends and then called again.
fn all_removed(checker: &mut Checker, rows: u64) {
    for (command, row) in scopes() {
        for allowance in [0, 1, rows - 1, rows, rows + 1, rows + 2, u64::MAX] {
            let mut kept = with_rows(waiting(0, 1), &vec![row; rows as usize]);
            run(checker, &mut kept, command, allowance);
            run(checker, &mut kept, command, u64::MAX);
        }
    }
}
