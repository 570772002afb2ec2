//! Refusals of checks in their order, whatever the batches are.

use super::samples::{hall, own, row};
use super::{bytes, call, Image};
use crate::checker::Checker;
use crate::generate::images::with_rows;
use crate::generate::regions::{region, with_regions, Pair};
use crate::limits::{self, REGIONS, ROWS};
use crate::phases::limits::places;
use crate::phases::waiting;

pub fn sweeps(checker: &mut Checker) {
    checker.phase("check: refusals in their order");
    for faults in 0..1 << 6 {
        faulty(checker, faults);
    }
    checker.phase("check: the row that is refused is named");
    named(checker);
    checker.phase("check: lengths of both tables");
    lengths(checker);
}

const LAW: &str = "another refusal of a check comes first, or names another row";

/// What makes the control word that of a queue that is off, held by an error, with one
/// acknowledged, empty, with an interrupt pending.
const STATES: [u64; 6] = [0, 1 << 49, 1 << 47 | 1 << 40, 1 << 40, 1 << 20, 1 << 55];

/// A bad length, control word, row; a bad length, row of the second table; a batch whose
/// commands aren't whole.
fn faulty(checker: &mut Checker, faults: u32) {
    let bit = |place: u32| faults >> place & 1 == 1;
    let second = if bit(2) { [2, 0, 0, 0] } else { [0; 4] };
    let rows = [row(0x03).unwrap_or([0; 4]), second];
    let mut kept = with_rows(waiting(0, 1), &rows);
    if bit(0) {
        kept.push(0);
    }
    if bit(1) {
        kept[0] |= 1 << 63;
    }
    let second = if bit(4) { [1, 1] } else { region(0, true, 0) };
    let mut table = with_regions(&[[0, 0], second, [0, 0]]);
    if bit(3) {
        table.push(0);
    }
    let number = match faults.trailing_zeros() as usize {
        place @ 0..6 => [1, 2, 3, 13, 14, 23][place],
        _ => 0,
    };
    let (fit, unfit) = (bytes(&[own(0x03)]), bytes(&[(0x46, 0)]));
    for (one, other) in [
        (&fit, &fit),
        (&fit, &unfit),
        (&unfit, &fit),
        (&unfit, &unfit),
    ] {
        let [long, short] = [&[&one[..], &[0x03]].concat()[..], &one[..15]];
        let batches: &[[&[u8]; 2]] = match bit(5) {
            true => &[[long, other], [short, other], [other, long], [long, short]],
            false => &[[one, other], [one, &[]], [&[], other], [&[], &[]]],
        };
        for &[original, proposed] in batches {
            for (state, features) in STATES.into_iter().zip([0x7F, 0, 0x21, 0xFF, !0, 0x40]) {
                let mut kept = kept.clone();
                kept[0] ^= state;
                refused(
                    checker,
                    &kept,
                    &table,
                    ([original, proposed], features),
                    number,
                );
            }
        }
    }
}

/// With 3 and 14 comes the row, which is 1 here.
fn refused(
    checker: &mut Checker,
    kept: &[u64],
    table: &[u64],
    ([original, proposed], features): ([&[u8]; 2], u64),
    number: u64,
) {
    let call = call(original, proposed, features);
    let mut after = kept.to_vec();
    let reply = checker.both(&mut after, &mut table.to_vec(), call);
    let row = u64::from(matches!(number, 3 | 14));
    let right = number == 0 || reply.answer == [row, 0, 0, 0, 0, 0, 0, 0];
    let met = reply.number == number && right;
    checker.insist(met, LAW, kept, call, (reply, &after));
}

/// One bad row of the largest tables, and another one above or in the other table.
fn named(checker: &mut Checker) {
    let bad: [Pair; 3] = [[2, 0], [1, 1], [1 | 10 << 2, 0]];
    let batch = bytes(&[own(0x03)]);
    let mut one = |kept: &[u64], table: &[u64], due: (u64, u64)| {
        for proposed in [&batch[..], &[], &batch[..15]] {
            let call = call(&batch, proposed, super::ALL);
            let mut after = kept.to_vec();
            let reply = checker.both(&mut after, &mut table.to_vec(), call);
            let met = (reply.number, reply.answer[0]) == due;
            checker.insist(met, LAW, kept, call, (reply, &after));
        }
    };
    for place in places(ROWS) {
        let mut kept = vec![0; limits::words(ROWS)];
        kept[0] = waiting(3, 2).pack();
        kept[1 + 4 * place as usize] = 2;
        one(&kept, &[0, 0], (3, place));
        one(&kept, &[2, 0], (3, place));
        kept[1 + 4 * (ROWS as usize - 1)] = 2;
        one(&kept, &[0, 0], (3, place));
    }
    let good = with_rows(waiting(0, 0), &[[0; 4]; 3]);
    for place in 0..REGIONS {
        let mut table = vec![0; limits::table_words(REGIONS)];
        table[2 * place as usize..][..2].copy_from_slice(&bad[place as usize % 3]);
        one(&good, &table, (14, place));
        table[limits::table_words(REGIONS) - 2] = 2;
        one(&good, &table, (14, place));
    }
}

/// Lengths of either table on both sides of its limits, beside batches of any sort.
fn lengths(checker: &mut Checker) {
    let Image { kept, table, .. } = hall();
    let batch = bytes(&[own(0x03)]);
    let mut one = |kept: &[u64], table: &[u64]| {
        for proposed in [&batch[..], &batch[..15]] {
            let call = call(&batch, proposed, super::ALL);
            checker.both(&mut kept.to_vec(), &mut table.to_vec(), call);
        }
    };
    for rows in [0, 1, 2, ROWS - 1, ROWS, ROWS + 1, 2 * ROWS] {
        let whole = limits::words(rows);
        for length in whole.saturating_sub(2)..=whole + 2 {
            let mut kept = vec![0; length];
            kept.iter_mut().take(1).for_each(|word| *word = 1 << 49);
            one(&kept, &table);
            one(&kept, &[]);
        }
    }
    let lost = [1 << 16, 1 << 20].map(|lost| lost + limits::table_words(1));
    for length in (0..=7).chain(253..=260).chain(lost) {
        one(&kept, &vec![0; length]);
    }
}
