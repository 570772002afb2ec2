//! The right thing found, and another thing told.

use super::made::Made;
use super::Named;
use crate::call::{DIFFERS, UNQUALIFIED, YES};

pub const MADE: &[Named<fn(&mut Made)>] = &[
    ("the highest row is named", |made| {
        made.name(|asked, _| {
            asked
                .differ()
                .iter()
                .rposition(|&differs| differs)
                .unwrap_or(0) as u64
        })
    }),
    (
        "the highest row of the lowest one's table is named",
        |made| {
            made.name(|asked, row| {
                let rows = asked.rows();
                let differ = asked.differ();
                let (of_rows, of_table) = differ.split_at(rows);
                let last =
                    |differ: &[bool]| differ.iter().rposition(|&differs| differs).unwrap_or(0);
                match (row as usize) < rows {
                    true => last(of_rows) as u64,
                    false => (rows + last(of_table)) as u64,
                }
            })
        },
    ),
    ("rows are counted from 1", |made| {
        made.name(|_, row| row + 1)
    }),
    ("a word is named for a row", |made| {
        made.name(|_, row| 1 + 4 * row)
    }),
    ("no row is named", |made| made.name(|_, _| 0)),
    ("regions are counted from 0", |made| {
        made.name(|asked, row| row.checked_sub(asked.rows() as u64).unwrap_or(row))
    }),
    ("regions are counted before the rows", |made| {
        made.name(|asked, row| {
            let regions = asked.table.len() as u64 / 2;
            row.checked_sub(asked.rows() as u64)
                .unwrap_or(row + regions)
        })
    }),
    ("regions are named before the rows", |made| {
        made.name(|asked, row| {
            let differ = asked.differ();
            let region = (asked.rows()..differ.len()).find(|&row| differ[row]);
            region.map_or(row, |row| row as u64)
        })
    }),
    ("regions are counted by words", |made| {
        made.name(|asked, row| match row.checked_sub(asked.rows() as u64) {
            Some(region) => asked.rows() as u64 + 2 * region,
            None => row,
        })
    }),
    ("regions follow a thousand rows", |made| {
        made.name(|asked, row| match row.checked_sub(asked.rows() as u64) {
            Some(region) => 1_000 + region,
            None => row,
        })
    }),
    ("regions follow the control word, too", |made| {
        made.name(|asked, row| row + u64::from(row >= asked.rows() as u64))
    }),
    ("only rows in use are counted", |made| {
        made.name(|asked, row| {
            let words = asked.kept[1..].iter().step_by(4);
            let words = words.chain(asked.table.iter().step_by(2));
            words.take(row as usize).filter(|&&word| word != 0).count() as u64
        })
    }),
    ("rows that differ are counted", |made| {
        made.name(|asked, _| asked.differ().iter().filter(|&&differs| differs).count() as u64)
    }),
    ("a row of eight bits", |made| made.name(|_, row| row & 0xFF)),
    ("a row below 1,000", |made| made.name(|_, row| row.min(999))),
    ("a row below 1,127", |made| {
        made.name(|_, row| row.min(1_126))
    }),
    ("the batch that takes the row is told", |made| {
        if made.said(DIFFERS) {
            let proposed = made.asked.gone(1)[made.answer[1] as usize];
            made.answer[2] = u64::from(proposed);
        }
    }),
    ("the next row that differs is told, too", |made| {
        if made.said(DIFFERS) {
            let differ = made.asked.differ();
            let next = (made.answer[1] as usize + 1..differ.len()).find(|&row| differ[row]);
            made.answer[2] = next.unwrap_or(0) as u64;
        }
    }),
    ("a difference is a 1", |made| {
        if made.said(DIFFERS) {
            made.answer[0] = UNQUALIFIED;
        }
    }),
    ("a difference is a yes", |made| {
        if made.said(DIFFERS) {
            made.say([0; 3]);
        }
    }),
    ("a difference is refused with 3", |made| {
        if made.said(DIFFERS) {
            made.refuse(3, made.answer[1]);
        }
    }),
    ("a yes is a 1", |made| {
        if made.number == 0 && made.answer[0] != UNQUALIFIED {
            made.answer[0] ^= 1;
        }
    }),
    ("a yes tells how many rows go", |made| {
        if made.said(YES) {
            made.answer[1] = made.asked.gone(0).iter().filter(|&&gone| gone).count() as u64;
        }
    }),
    ("a yes tells how many commands are saved", |made| {
        if made.said(YES) {
            let [one, other] = [0, 1].map(|batch| made.asked.batches[batch].len() / 16);
            made.answer[2] = one.saturating_sub(other) as u64;
        }
    }),
    ("a yes leaves the answer as it is", |made| {
        if made.said(YES) {
            made.answer = [0, !0, !0, !0, !0, !0, !0, !0];
        }
    }),
    ("the answer's last words aren't cleared", |made| {
        made.answer[7] = 0x5A;
    }),
    ("there is no yes for a proposal as long", |made| {
        let [one, other] = [0, 1].map(|batch| made.asked.batches[batch].len());
        if made.said(YES) && one == other && one > 0 {
            made.say([DIFFERS, 0, 0]);
        }
    }),
    ("there is no yes for a longer proposal", |made| {
        let [one, other] = [0, 1].map(|batch| made.asked.batches[batch].len());
        if made.said(YES) && one < other {
            made.say([DIFFERS, 0, 0]);
        }
    }),
    ("there is no yes for an empty proposal", |made| {
        let [one, other] = [0, 1].map(|batch| made.asked.batches[batch].len());
        if made.said(YES) && one > 0 && other == 0 {
            made.say([DIFFERS, 0, 0]);
        }
    }),
    ("there is no yes for empty batches", |made| {
        if made.said(YES) && made.asked.batches.iter().all(|batch| batch.is_empty()) {
            made.say([DIFFERS, 0, 0]);
        }
    }),
    ("there is no yes where no row goes", |made| {
        if made.said(YES) && !made.asked.gone(0).contains(&true) {
            made.say([DIFFERS, 0, 0]);
        }
    }),
];
