//! The row that would be doubled, at the last place of a table and elsewhere.

use super::{fill, first, second, ASID, EMPTY, PAGE, STREAM, SUBSTREAM, VMID, WRITE_BACK};
use crate::checker::Checker;
use crate::generate::rows::{cd, ste, Reach, Words};
use crate::limits::{ROWS, UPPER};
use crate::phases::limits::{places, sizes, table};

pub fn sweeps(checker: &mut Checker) {
    checker.phase("doubles: the last row and the first of every table");
    for rows in 2..=ROWS {
        let words = kinds()[rows as usize % 5];
        at(checker, rows, (rows - 1, 0), words);
        at(checker, rows, (0, rows - 1), words);
    }
    checker.phase("doubles: a row at every place");
    for rows in sizes().into_iter().filter(|&rows| rows > 1) {
        for place in places(rows) {
            let empty = if place == rows / 2 { 0 } else { rows / 2 };
            for words in kinds() {
                at(checker, rows, (place, empty), words);
                among(checker, rows, (place, empty), words);
            }
        }
    }
}

fn kinds() -> [Words; 5] {
    [
        ste(STREAM, VMID, 7, 0),
        cd(STREAM, SUBSTREAM, ASID),
        first(12, PAGE).page(PAGE, WRITE_BACK),
        first(12, PAGE | UPPER).page(PAGE, WRITE_BACK),
        second(12, PAGE).page(PAGE, WRITE_BACK),
    ]
}

/// One row in use that could answer, all others not last-level; and then none.
fn at(checker: &mut Checker, rows: u64, (place, empty): (u64, u64), words: Words) {
    let own = table(rows, &[(empty, EMPTY), (place, words)]);
    fill(checker, &own, empty as usize, words);
    let [_, rest @ ..] = words;
    let [one, two, three] = rest;
    let left = table(rows, &[(empty, EMPTY), (place, [0, one, two, three])]);
    fill(checker, &left, empty as usize, words);
}

/// The others are last-level rows of every kind, each with an identifier of its
/// own.
fn among(checker: &mut Checker, rows: u64, (place, empty): (u64, u64), words: Words) {
    let other = |number: u64| match number % 4 {
        0 => ste(STREAM + 1 + number, VMID, 7, 0),
        1 => cd(STREAM, SUBSTREAM + 1 + number, ASID),
        2 => {
            let vmid = VMID + 1 + number;
            Reach {
                vmid,
                ..first(12, PAGE)
            }
            .page(PAGE, WRITE_BACK)
        }
        _ => second(12, PAGE + (1 + number << 12)).page(PAGE, WRITE_BACK),
    };
    let mut own: Vec<Words> = (0..rows).map(other).collect();
    own[empty as usize] = EMPTY;
    fill(checker, &own, empty as usize, words);
    own[place as usize] = words;
    fill(checker, &own, empty as usize, words);
}
