//! A row that is ill formed, filled or used, at the last place and elsewhere.

use super::{bytes, every_call, every_refused, first, places, sizes, table, waiting};
use super::{BYSTANDER, OUTPUT, STAGE1_PAYLOAD};
use crate::call::Call;
use crate::checker::Checker;
use crate::generate::images::with_rows;
use crate::generate::rows::{cd_table, Words};
use crate::limits::ROWS;
use crate::model::control::Control;

const EMPTY: Words = [0; 4];

pub fn sweeps(checker: &mut Checker) {
    checker.phase("limits: a row that is ill formed");
    for rows in 1..=ROWS {
        let mut kept = with_rows(waiting(0, 0), &table(rows, &[(rows - 1, [2; 4])]));
        checker.call(&mut kept, Call::State);
    }
    for rows in sizes() {
        refused(checker, rows);
    }
    checker.phase("limits: a row that is filled, and used rows");
    for rows in 1..=ROWS {
        filled(checker, rows, rows - 1);
    }
    for rows in sizes() {
        for place in places(rows) {
            filled(checker, rows, place);
            used(checker, rows, place);
        }
        beyond(checker, rows);
        used(checker, rows, rows);
    }
}

/// A row with one word wrong, by every call. The memory has an active error, a
/// pending interrupt and a command, and row 0 is empty where it can be, so that no
/// call would be refused for another reason.
fn refused(checker: &mut Checker, rows: u64) {
    let control = Control {
        err: 1,
        gerror: true,
        pending: true,
        ..waiting(0, 1)
    };
    let queue = bytes(&[(0x46, 0)]);
    let [word, stream, ..] = cd_table(BYSTANDER);
    for place in places(rows) {
        for bad in [
            [2, stream, 0, 0],
            [word, stream | 1 << 63, 0, 0],
            [word, stream, 1, 0],
            [word, stream, 0, 1],
        ] {
            let one = table(rows, &[(0, EMPTY), (place, bad)]);
            every_call(checker, &with_rows(control, &one), &queue);
            let two = table(rows, &[(0, EMPTY), (place, bad), (rows - 1, bad)]);
            every_call(checker, &with_rows(control, &two), &queue);
        }
        let bad = table(rows, &[(place, [2, stream, 0, 0])]);
        every_refused(checker, &with_rows(waiting(0, 1), &bad));
    }
    let good = table(rows, &[(0, EMPTY)]);
    every_call(checker, &with_rows(control, &good), &queue);
}

fn fill(checker: &mut Checker, kept: &mut [u64], row: u64, allowance: u64) {
    let words = first().page(OUTPUT, STAGE1_PAYLOAD);
    let call = Call::Fill {
        row,
        words,
        allowance,
    };
    checker.call(kept, call);
}

/// The only empty row of a table, at every allowance and then again; one of many
/// empty rows; and one that is in use.
fn filled(checker: &mut Checker, rows: u64, place: u64) {
    let dirty = [0, u64::MAX, u64::MAX, u64::MAX];
    for allowance in (0..=5).chain([u64::MAX]) {
        let mut kept = with_rows(waiting(0, 0), &table(rows, &[(place, dirty)]));
        fill(checker, &mut kept, place, allowance);
        fill(checker, &mut kept, place, 4);
    }
    let mut kept = with_rows(waiting(0, 0), &vec![EMPTY; rows as usize]);
    fill(checker, &mut kept, place, 4);
    let mut kept = with_rows(waiting(0, 0), &table(rows, &[]));
    fill(checker, &mut kept, place, 4);
}

/// Row numbers beyond a table of empty rows, and those that are its last row's
/// once a bit is lost.
fn beyond(checker: &mut Checker, rows: u64) {
    let powers = (0..64).map(|bit| (rows - 1) | 1 << bit);
    for row in powers.chain([rows, rows + 1, 2 * rows, u64::MAX]) {
        let mut kept = with_rows(waiting(0, 0), &vec![EMPTY; rows as usize]);
        fill(checker, &mut kept, row, 4);
    }
}

/// The rows below a place are used, and then that one alone.
fn used(checker: &mut Checker, rows: u64, place: u64) {
    let mut below = table(rows, &[]);
    below[place as usize..].fill(EMPTY);
    checker.call(&mut with_rows(waiting(0, 0), &below), Call::State);
    let mut alone = vec![EMPTY; rows as usize];
    if let Some(row) = alone.get_mut(place as usize) {
        *row = cd_table(BYSTANDER);
    }
    checker.call(&mut with_rows(waiting(0, 0), &alone), Call::State);
}
