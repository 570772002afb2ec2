//! Refusals on both sides of 13 and 14: which comes first, and which row is named.

use super::{bytes, fill, run, waiting, ALL, MIDDLE};
use crate::call::Call;
use crate::checker::Checker;
use crate::generate::images::with_rows;
use crate::generate::regions::{region, with_regions, Pair};
use crate::limits::REGIONS;
use crate::phases::limits::places;

pub fn sweeps(checker: &mut Checker) {
    checker.phase("regions: refusals of runs in their order");
    for faults in 0..1 << 6 {
        runs(checker, faults);
    }
    checker.phase("regions: refusals of fills in their order");
    for faults in 0..1 << 8 {
        fills(checker, faults);
    }
    checker.phase("regions: the lowest row is named");
    named(checker);
}

const LAW: &str = "another refusal comes first";

/// The first of the numbers whose fault is there, from bit 0 on; 0 if none is.
fn first(faults: u32, numbers: &[u64]) -> u64 {
    let place = faults.trailing_zeros() as usize;
    numbers.get(place).copied().unwrap_or(0)
}

/// A memory and a second table with a bad length, a bad control word, a bad row; a bad
/// length and a bad row, as the five lowest bits have it.
fn lent(faults: u32) -> (Vec<u64>, Vec<u64>) {
    let bit = |place: u32| faults >> place & 1 == 1;
    let rows = [[0; 4], if bit(2) { [2, 0, 0, 0] } else { [0; 4] }];
    let mut kept = with_rows(waiting(0, 1), &rows);
    if bit(0) {
        kept.push(0);
    }
    if bit(1) {
        kept[0] |= 1 << 63;
    }
    let second = if bit(4) { [1, 1] } else { region(0, true, 0) };
    let mut table = with_regions(&[[0, 0], second, [0, 0]]);
    if bit(3) {
        table.push(0);
    }
    (kept, table)
}

/// What makes the control word that of a queue that is off, or held by an error, or
/// empty.
const OFF: u64 = 1 << 49;
const HELD: u64 = 1 << 47 | 1 << 40;
const EMPTY: u64 = 1 << 20;

/// Runs try 1, 2, 3, 13, 14 and then 4, whatever the run would end with.
fn runs(checker: &mut Checker, faults: u32) {
    let (kept, table) = lent(faults);
    let queue = bytes(&vec![(0x70, 0); 1 + (faults >> 5) as usize]);
    for (change, features, allowance) in [
        (0, ALL, u64::MAX),
        (0, ALL, 0),
        (0, 0, 1),
        (OFF, ALL, 0),
        (HELD, ALL, u64::MAX),
        (EMPTY, 0, 0),
    ] {
        let mut kept = kept.clone();
        kept[0] ^= change;
        let call = run(&queue, features, allowance);
        let number = first(faults, &[1, 2, 3, 13, 14, 4]);
        refused(checker, (&kept, &table), call, number);
    }
}

/// Fills of the second table try 1, 2, 3, 13, 14, 7, 8 and 9.
fn fills(checker: &mut Checker, faults: u32) {
    let (kept, table) = lent(faults);
    let bit = |place: u32| faults >> place & 1 == 1;
    // A row that isn't there isn't in use either.
    let row = match (bit(5), bit(6)) {
        (true, _) => 3,
        (false, true) => 1,
        (false, false) => 2,
    };
    let words = if bit(7) { [2, 0] } else { region(1, true, 0) };
    for allowance in [0, 1, 2, u64::MAX] {
        let number = first(faults, &[1, 2, 3, 13, 14, 7, 8, 9]);
        refused(
            checker,
            (&kept, &table),
            fill(row, words, allowance),
            number,
        );
    }
}

/// With 3 and 14 comes the row, which is 1 here.
fn refused(checker: &mut Checker, (kept, table): (&[u64], &[u64]), call: Call, number: u64) {
    let mut after = kept.to_vec();
    let reply = checker.both(&mut after, &mut table.to_vec(), call);
    let row = u64::from(matches!(number, 3 | 14));
    let met = reply.number == number && (number == 0 || reply.answer[0] == row);
    checker.insist(met, LAW, kept, call, (reply, &after));
}

/// Two bad rows anywhere in the largest table, and one in tables of other sizes, by
/// runs and by fills.
fn named(checker: &mut Checker) {
    let bad: [Pair; 4] = [[2, 0], [1, 1], [1 | 10 << 2, 0], [1 << 63 | 1, 0]];
    let queue = bytes(&[(0x46, 0)]);
    let mut one = |table: Vec<Pair>, lowest: u64| {
        let kept = with_rows(waiting(0, 1), &[[0; 4]]);
        let table = with_regions(&table);
        for call in [
            run(&queue, ALL, u64::MAX),
            fill(0, region(0, true, MIDDLE), 2),
        ] {
            let mut after = kept.clone();
            let reply = checker.both(&mut after, &mut table.clone(), call);
            let met = (reply.number, reply.answer[0]) == (14, lowest);
            checker.insist(met, LAW, &kept, call, (reply, &after));
        }
    };
    for place in 0..REGIONS {
        for (number, words) in bad.into_iter().enumerate() {
            let mut table = vec![region(0, true, MIDDLE); REGIONS as usize];
            table[place as usize] = words;
            one(table.clone(), place);
            for other in places(REGIONS) {
                let mut table = table.clone();
                table[other as usize] = bad[(number + 1) % bad.len()];
                one(table, place.min(other));
            }
        }
    }
    for rows in 1..=REGIONS {
        let mut table = vec![[0, 1]; rows as usize];
        table[rows as usize - 1] = bad[rows as usize % bad.len()];
        one(table, rows - 1);
    }
}
