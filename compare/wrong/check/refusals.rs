//! The refusals before 23, given otherwise.

use super::asked::Asked;
use super::made::Made;
use super::Named;
use crate::model::image;
use crate::model::region;

/// Of two that are due the later one is given.
pub const EARLY: [(u64, u64); 14] = [
    (2, 1),
    (3, 2),
    (13, 1),
    (13, 2),
    (13, 3),
    (14, 1),
    (14, 2),
    (14, 3),
    (14, 13),
    (23, 1),
    (23, 2),
    (23, 3),
    (23, 13),
    (23, 14),
];

pub fn early(made: &mut Made, early: u64, due: u64) {
    if made.number != due {
        return;
    }
    let asked = &made.asked;
    let over = asked.batches.iter().any(|batch| batch.len() % 16 > 0);
    let table = region::accept(&asked.table).err().map(|told| told.number());
    let region = region::regions(&asked.table).position(|row| !row.acceptable());
    let row = image::rows(&asked.kept).position(|row| !row.acceptable());
    let word = asked.kept.first().copied().unwrap_or(0);
    let told = match early {
        2 if word >> 56 != 0 => Some(0),
        3 => row,
        13 if table == Some(13) => Some(0),
        14 => region,
        23 if over => Some(0),
        _ => None,
    };
    if let Some(row) = told {
        made.refuse(early, row as u64);
    }
}

pub const SEEN: &[Named<fn(&mut Asked)>] = &[
    ("the second table's length of 16 bits", |asked| {
        let length = asked.table.len() % (1 << 16);
        asked.table.truncate(length);
    }),
    ("no second table is an empty one", |asked| {
        if asked.table.is_empty() {
            asked.table = vec![0, 0];
        }
    }),
    (
        "an odd word of the second table is not looked at",
        |asked| {
            let length = asked.table.len();
            if length > 2 {
                asked.table.truncate(length / 2 * 2);
            }
        },
    ),
    ("the second table is looked at with DPT alone", |asked| {
        if asked.features >> 6 & 1 == 0 {
            asked.table = vec![0, 0];
        }
    }),
    (
        "the second table is looked at for its own commands alone",
        |asked| {
            let own = |batch: usize| {
                let codes = asked.commands(batch).into_iter().map(|(low, _)| low as u8);
                codes.into_iter().any(|code| code == 0x70 || code == 0x73)
            };
            if !own(0) && !own(1) {
                asked.table = vec![0, 0];
            }
        },
    ),
    ("rows that no command is after may be ill formed", |asked| {
        let bad: Vec<usize> = image::rows(&asked.kept)
            .enumerate()
            .filter(|(_, row)| !row.acceptable())
            .map(|(row, _)| image::place(row))
            .collect();
        bad.into_iter().for_each(|place| asked.kept[place] = 0);
    }),
    ("regions may be ill formed", |asked| {
        let bad: Vec<usize> = region::regions(&asked.table)
            .enumerate()
            .filter(|(_, row)| !row.acceptable())
            .map(|(row, _)| 2 * row)
            .collect();
        bad.into_iter().for_each(|place| asked.table[place] = 0);
    }),
];

/// No refusal where every row stays or goes alike.
pub fn fewer(made: &mut Made, due: u64, so: impl Fn(&Asked) -> bool) {
    if made.number == due && so(&made.asked) {
        made.say([0; 3]);
    }
}

pub fn lengths(asked: &Asked) -> [usize; 2] {
    [0, 1].map(|batch| asked.batches[batch].len())
}

pub const MADE: &[Named<fn(&mut Made)>] = &[
    ("14 counts from the kept memory's rows", |made| {
        if made.number == 14 {
            made.answer[0] += made.asked.rows() as u64;
        }
    }),
    ("14 names no row", |made| {
        if made.number == 14 {
            made.answer[0] = 0;
        }
    }),
    ("3 names no row", |made| {
        if made.number == 3 {
            made.answer[0] = 0;
        }
    }),
    ("3 names the highest row", |made| {
        if made.number == 3 {
            let rows: Vec<_> = image::rows(&made.asked.kept).collect();
            let last = rows.iter().rposition(|row| !row.acceptable());
            made.answer[0] = last.unwrap_or(0) as u64;
        }
    }),
    ("14 as 3, behind the other rows", |made| {
        if made.number == 14 {
            made.refuse(3, made.asked.rows() as u64 + made.answer[0]);
        }
    }),
    ("rows aren't looked at for empty batches", |made| {
        fewer(made, 3, |asked| lengths(asked) == [0, 0])
    }),
    ("regions aren't looked at for empty batches", |made| {
        fewer(made, 14, |asked| lengths(asked) == [0, 0])
    }),
    ("rows aren't looked at for the same bytes", |made| {
        fewer(made, 3, |asked| asked.batches[0] == asked.batches[1])
    }),
    ("a command that doesn't qualify before 3", |made| {
        if made.number == 3 && !made.asked.unfit(0).is_empty() {
            made.say([1, 0, made.asked.unfit(0)[0]]);
        }
    }),
    ("a command that doesn't qualify before 14", |made| {
        if made.number == 14 && !made.asked.unfit(0).is_empty() {
            made.say([1, 0, made.asked.unfit(0)[0]]);
        }
    }),
    ("a command that doesn't qualify before 23", |made| {
        if made.number == 23 && !made.asked.unfit(0).is_empty() {
            made.say([1, 0, made.asked.unfit(0)[0]]);
        }
    }),
    (
        "the original is searched before the proposal's length is",
        |made| {
            let whole = lengths(&made.asked)[0] % 16 == 0;
            if made.number == 23 && whole && !made.asked.unfit(0).is_empty() {
                made.say([1, 0, made.asked.unfit(0)[0]]);
            }
        },
    ),
];
