//! Checks that store to what they are only to read.

use super::made::Made;
use super::Named;
use crate::call::{DIFFERS, UNQUALIFIED, YES};
use crate::model::image::place;

/// Rows of both tables are removed where they are.
fn remove(made: &mut Made, batch: usize) {
    let rows = made.asked.rows();
    for (row, gone) in made.asked.gone(batch).into_iter().enumerate() {
        match row.checked_sub(rows) {
            _ if !gone => (),
            None => made.kept[place(row)] = 0,
            Some(region) => made.table[2 * region] = 0,
        }
    }
}

pub const MADE: &[Named<fn(&mut Made)>] = &[
    ("the original is run on the kept memory", |made| {
        if made.number == 0 {
            remove(made, 0);
        }
    }),
    ("the proposal is run on the kept memory", |made| {
        if made.number == 0 {
            remove(made, 1);
        }
    }),
    ("a proposal that gets a yes is carried out", |made| {
        if made.said(YES) {
            remove(made, 1);
        }
    }),
    (
        "an original is carried out if its proposal is none",
        |made| {
            if made.said(DIFFERS) {
                remove(made, 0);
            }
        },
    ),
    ("the second table alone is run on", |made| {
        if made.number == 0 {
            let kept = made.kept.clone();
            remove(made, 0);
            made.kept = kept;
        }
    }),
    ("the row that is named goes", |made| {
        if made.said(DIFFERS) {
            let (row, rows) = (made.answer[1] as usize, made.asked.rows());
            match row.checked_sub(rows) {
                None => made.kept[place(row)] = 0,
                Some(region) => made.table[2 * region] = 0,
            }
        }
    }),
    (
        "an error is raised for a command that doesn't qualify",
        |made| {
            if made.said(UNQUALIFIED) {
                made.kept[0] ^= 1 << 47;
                made.kept[0] |= 1 << 40;
            }
        },
    ),
    ("RD moves by the original", |made| {
        if made.said(YES) {
            let count = made.asked.batches[0].len() as u64 / 16;
            let ring = (2u64 << (made.kept[0] >> 50 & 15)) - 1;
            made.kept[0] = made.kept[0] & !0xF_FFFF | (made.kept[0] & 0xF_FFFF) + count & ring;
        }
    }),
    ("an interrupt is pending after a check", |made| {
        if made.number == 0 {
            made.kept[0] |= 1 << 55;
        }
    }),
    ("the queue is off after a check", |made| {
        if made.number == 0 {
            made.kept[0] &= !(1 << 49);
        }
    }),
    ("an ill-formed row is mended", |made| {
        if made.number == 3 {
            made.kept[place(made.answer[0] as usize)] = 0;
        }
    }),
    ("an ill-formed region is mended", |made| {
        if made.number == 14 {
            made.table[2 * made.answer[0] as usize] = 0;
        }
    }),
    ("an empty row's words are cleared", |made| {
        if made.number == 0 {
            for row in 0..made.asked.rows() {
                if made.kept[place(row)] == 0 {
                    made.kept[place(row) + 1..][..3].fill(0);
                }
            }
        }
    }),
    ("an empty region's base is cleared", |made| {
        if made.number == 0 {
            for row in 0..made.table.len() / 2 {
                if made.table[2 * row] == 0 {
                    made.table[2 * row + 1] = 0;
                }
            }
        }
    }),
    ("bit 63 of the control word is set by 23", |made| {
        if made.number == 23 {
            made.kept[0] |= 1 << 63;
        }
    }),
];
