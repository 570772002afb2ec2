//! Every row of tables of every size, as commands and fills come across it.

use super::{bytes, fill, run, scoped, size, waiting, ALL, MIDDLE};
use crate::call::CUT;
use crate::checker::Checker;
use crate::generate::images::with_rows;
use crate::generate::regions::{about, region, with_regions, Pair};
use crate::limits::REGIONS;

pub fn sweeps(checker: &mut Checker) {
    checker.phase("regions: every row of tables of every size");
    for rows in 1..=REGIONS {
        tables(checker, rows);
    }
    checker.phase("regions: each row of the largest table alone");
    let table = pages(REGIONS);
    for row in 0..REGIONS {
        scoped(checker, &table, about(page(row), 0, 0), ALL);
        scoped(checker, &table, about(page(row), 0, 1), ALL);
        let mut one = vec![[0, page(row)]; REGIONS as usize];
        one[row as usize] = table[row as usize];
        scoped(checker, &one, (0x70, 0), ALL);
        scoped(checker, &one, about(MIDDLE, 9, 0), ALL);
    }
    checker.phase("regions: a fill of every row");
    for row in 0..REGIONS {
        one_fill(checker, row);
    }
}

fn page(row: u64) -> u64 {
    MIDDLE + row * size(0)
}

/// A page for each row, every second one last-level.
fn pages(rows: u64) -> Vec<Pair> {
    (0..rows)
        .map(|row| region(0, row % 2 == 0, page(row)))
        .collect()
}

/// All rows by 70 and by the largest size, the last and the first one alone, none; and
/// a run cut within.
fn tables(checker: &mut Checker, rows: u64) {
    let table = pages(rows);
    for command in [
        (0x70, 0),
        about(MIDDLE, 9, 0),
        about(MIDDLE, 3, 1),
        about(page(rows - 1), 0, 0),
        about(page(0), 0, 0),
        about(page(rows), 0, 0),
    ] {
        scoped(checker, &table, command, ALL);
    }
    let before = with_rows(waiting(0, 1), &[[0; 4]]);
    let queue = bytes(&[(0x70, 0)]);
    for allowance in [0, 1, rows - 1, rows] {
        let (mut kept, mut left) = (before.clone(), with_regions(&table));
        let call = run(&queue, ALL, allowance);
        let reply = checker.both(&mut kept, &mut left, call);
        let gone = left.chunks_exact(2).filter(|row| row[0] == 0).count() as u64;
        let met = reply.answer[..4] == [CUT, 0, allowance, allowance] && gone == allowance;
        let law = "a run cut by its allowance took other rows of the table";
        checker.insist(met, law, &before, call, (reply, &kept));
    }
}

/// A row that is empty among rows in use, and one in use among empty ones.
fn one_fill(checker: &mut Checker, row: u64) {
    let words = region(4, true, MIDDLE);
    let mut full = pages(REGIONS);
    full[row as usize][0] = 0;
    let mut none = vec![[0, u64::MAX]; REGIONS as usize];
    none[row as usize] = words;
    for rows in [full, none] {
        let mut kept = with_rows(waiting(0, 0), &[[0; 4]]);
        let mut table = with_regions(&rows);
        for row in [row, (row + 1) % REGIONS, row, row | 1 << 7, row | 1 << 32] {
            checker.both(&mut kept, &mut table, fill(row, words, 2));
        }
    }
}
