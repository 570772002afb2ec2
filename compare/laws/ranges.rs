//! What document 02, T-07 says of any run, over bits and single pages.

use crate::call::{Reply, CUT};
use crate::model::control::Control;
use crate::model::image::{place, rows};
use crate::model::row::Row;

const RIL: u64 = 1 << 5;

/// Ranges up to so many pages are looked at page by page.
const FEW: u64 = 64;

/// Low and high word.
type Command = (u64, u64);

/// The commands that a run consumed, and the one that it began.
fn begun(before: &[u64], queue: &[u8], reply: Reply) -> Vec<Command> {
    let control = Control::fields(before[0]);
    let [end, consumed, ..] = reply.answer;
    let word = |from: usize| u64::from_le_bytes(queue[from..from + 8].try_into().unwrap());
    let begun = consumed + u64::from(end == CUT);
    (control.rd..control.rd + begun)
        .map(|index| 16 * (index % control.slots()) as usize)
        .map(|slot| (word(slot), word(slot + 8)))
        .collect()
}

/// NUM, SCALE and TTL, then TG and TTL128, of a command by address.
fn fields((low, high): Command) -> Option<([u64; 3], u64, u64)> {
    let ranged = matches!(low as u8, 0x12 | 0x13 | 0x22 | 0x23 | 0x2A);
    let range = [low >> 12 & 31, low >> 20 & 31, high >> 8 & 3];
    ranged.then_some((range, high >> 10 & 3, high >> 7 & 1))
}

/// The pages of a short range.
fn pages(command: Command) -> Option<std::ops::Range<u64>> {
    let ([num, scale, _], tg, _) = fields(command)?;
    let granule = match tg {
        0 => return None,
        tg => 1 << (2 * (tg - 1)),
    };
    let first = (command.1 >> 12) / granule * granule;
    let count = ((num + 1) << scale) * granule;
    (count <= FEW).then(|| first..(first + count).min(1 << 52))
}

/// Whether the row of a stage holds one of the pages.
fn holds(row: &Row, mut pages: std::ops::Range<u64>) -> bool {
    let stage = row.used() && row.0[0] & 1 << 2 != 0;
    stage && pages.any(|page| page >> (row.span() - 12) == row.input() >> row.span())
}

/// What a row is but for its place: all of word 0 but the span and the payload.
fn sort(row: &Row) -> u64 {
    row.0[0] << 16 >> 16 & !(0x3F << 5)
}

pub fn run(
    before: &[u64],
    (queue, features): (&[u8], u64),
    reply: Reply,
    after: &[u64],
) -> Option<&'static str> {
    let [end, consumed, ..] = reply.answer;
    let begun = begun(before, queue, reply);
    // One that is begun may yet turn out illegal.
    for &command in &begun[..consumed as usize] {
        match fields(command) {
            Some((_, 1.., _)) if features & RIL == 0 => return Some("a granule without RIL"),
            Some(([_, _, 0], 1.., 1)) => return Some("TTL128 without a level"),
            Some(([0, 0, 0], 1.., _)) => return Some("a granule with neither range nor level"),
            Some(([0, 0, 0], 0, 0)) | Some((_, 1.., _)) | None => (),
            Some((_, 0, _)) => return Some("part of a range without a granule"),
        }
    }
    let [command] = begun[..] else {
        return None;
    };
    let pages = pages(command)?;
    let gone = |number: usize| after[place(number)] == 0;
    let mut taken = Vec::new();
    for (number, row) in rows(before).enumerate().filter(|(_, row)| row.used()) {
        match (gone(number), holds(&row, pages.clone())) {
            (true, false) => return Some("a row goes that has no page of the range"),
            (true, true) => taken.push(sort(&row)),
            (false, _) => (),
        }
    }
    let like = |(number, row): &(usize, Row)| {
        !gone(*number) && taken.contains(&sort(row)) && holds(row, pages.clone())
    };
    let left = end != CUT && rows(before).enumerate().any(|row| like(&row));
    left.then_some("a row stays that has a page of the range and is like one that goes")
}
