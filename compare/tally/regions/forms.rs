//! Rows of the second table that were accepted, filled in and refused, and its lengths.

use super::super::Table;
use super::{heads, line};
use crate::call::{Call, Reply};
use crate::generate::regions::SIZES;
use crate::limits::{table_words, ADDRESS, REGIONS};
use crate::model::region::{regions, Region};

/// A row of each size: accepted by a run, filled in, cut after none and after one; the
/// same with the row not last-level.
const WAYS: [&str; 8] = [
    "run", "filled", "cut 0", "cut 1", "table", "t filled", "t cut 0", "t cut 1",
];

/// Why a row is refused: it isn't valid, its size is none, a bit above is set, its base
/// is at 2^52 or beyond, or isn't a multiple of the size. And where it is: the first,
/// between others, the last of the largest table; before another that is bad.
const FAULTS: [&str; 10] = [
    "valid",
    "size",
    "above",
    "2^52",
    "beyond",
    "unaligned",
    "first",
    "between",
    "last",
    "of two",
];

/// None, an odd number of words, a row too many, far more.
const LENGTHS: [&str; 4] = ["none", "odd", "one more", "far more"];

/// Rows that aren't there, that are in use, and words that aren't well formed, at an
/// allowance of 0 and of more.
const FILLS: [&str; 6] = ["7, none", "7", "8, none", "8", "9, none", "9"];

const BY: [&str; 2] = ["run", "table_fill"];

#[derive(Default)]
pub struct Forms {
    good: [[u64; WAYS.len()]; SIZES.len()],
    bad: [[u64; FAULTS.len()]; BY.len()],
    /// The words of a fill that 9 refuses.
    words: [u64; 6],
    lengths: [[u64; LENGTHS.len()]; BY.len()],
    fills: [u64; FILLS.len()],
    /// Calls carried out on tables of one row and of the most.
    sizes: [[u64; 2]; BY.len()],
}

impl Forms {
    pub fn count(&mut self, table: &[u64], call: &Call, reply: &Reply) {
        let by = match call {
            Call::Run { .. } => 0,
            Call::TableFill { .. } => 1,
            _ => return,
        };
        match reply.number {
            0 => self.accepted(table, by, call, reply),
            13 => {
                let most = table_words(REGIONS);
                let length = table.len();
                let ways = [
                    length == 0,
                    length % 2 == 1,
                    length == most + 2,
                    length >= 1 << 16,
                ];
                add(&mut self.lengths[by], &ways);
            }
            14 => self.refused(table, by, reply.answer[0] as usize),
            number => self.refused_fill(call, number),
        }
    }

    fn accepted(&mut self, table: &[u64], by: usize, call: &Call, reply: &Reply) {
        let rows = table.len() as u64 / 2;
        add(&mut self.sizes[by], &[rows == 1, rows == REGIONS]);
        match *call {
            Call::TableFill { words, .. } => {
                let way = if reply.answer[0] == 0 {
                    1
                } else {
                    2 + reply.answer[1] as usize
                };
                self.good(&Region(words), way);
            }
            _ => regions(table)
                .filter(Region::used)
                .for_each(|row| self.good(&row, 0)),
        }
    }

    fn good(&mut self, row: &Region, way: usize) {
        let code = row.0[0] as usize >> 2;
        self.good[code][way + if row.last_level() { 0 } else { 4 }] += 1;
    }

    fn refused(&mut self, table: &[u64], by: usize, lowest: usize) {
        let rows: Vec<Region> = regions(table).collect();
        let bad = rows.iter().filter(|row| !row.acceptable()).count();
        let [valid, size, above, at, beyond, unaligned] = faults(&rows[lowest]);
        let ways = [
            valid,
            size,
            above,
            at,
            beyond,
            unaligned,
            lowest == 0 && rows.len() > 1,
            lowest > 0 && lowest + 1 < rows.len(),
            lowest + 1 == REGIONS as usize,
            bad > 1,
        ];
        add(&mut self.bad[by], &ways);
    }

    fn refused_fill(&mut self, call: &Call, number: u64) {
        let Call::TableFill {
            words, allowance, ..
        } = *call
        else {
            return;
        };
        if number == 9 {
            add(&mut self.words, &faults(&Region(words)));
        }
        if let 7..=9 = number {
            let way = 2 * (number as usize - 7) + usize::from(allowance > 0);
            self.fills[way] += 1;
        }
    }

    pub fn print(&self, table: &mut Table) {
        heads("Regions", &WAYS);
        for (code, counts) in self.good.iter().enumerate() {
            line(
                table,
                &format!("size {code}"),
                counts.map(|count| (count, true)),
            );
        }
        heads("Bad regions", &FAULTS);
        for (name, counts) in BY.iter().zip(&self.bad) {
            line(table, name, counts.map(|count| (count, true)));
        }
        line(table, "words", self.words.map(|count| (count, true)));
        heads("Bad lengths", &LENGTHS);
        for (name, counts) in BY.iter().zip(&self.lengths) {
            line(table, name, counts.map(|count| (count, true)));
        }
        heads("Refused fills", &FILLS);
        line(table, "table_fill", self.fills.map(|count| (count, true)));
        heads("Table's rows", &["one", "most"]);
        for (name, counts) in BY.iter().zip(&self.sizes) {
            line(table, name, counts.map(|count| (count, true)));
        }
    }
}

/// What is wrong with a row, if it's one thing alone.
fn faults(row: &Region) -> [bool; 6] {
    let [word, base] = row.0;
    let code = word as usize >> 2 & 15;
    let size = SIZES.get(code).map(|&size| 1u64 << size);
    let valid = word & 1 == 1;
    let above = word >> 6 != 0;
    let placed = size.map_or(base == 0, |size| base < ADDRESS && base % size == 0);
    let head = valid && !above && size.is_some();
    let rest = |size: u64| base % size == 0;
    [
        !valid && word != 0 && size.is_some() && !above && placed,
        valid && size.is_none() && !above && placed,
        valid && size.is_some() && above && placed,
        head && base == ADDRESS,
        head && base > ADDRESS && size.is_some_and(rest),
        head && base < ADDRESS && !size.is_some_and(rest),
    ]
}

fn add(counts: &mut [u64], ways: &[bool]) {
    for (count, &met) in counts.iter_mut().zip(ways) {
        *count += u64::from(met);
    }
}
