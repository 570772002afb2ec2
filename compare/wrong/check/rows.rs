//! Rows compared otherwise.

use super::asked::Asked;
use super::made::Made;
use super::Named;
use crate::model::image;
use crate::model::region;
use crate::model::row::{Kind, Row};

/// The lowest row that differs, of those that pass.
fn only(made: &mut Made, so: impl Fn(&Asked, usize) -> bool) {
    made.compare(|asked| {
        let differ = asked.differ();
        (0..differ.len()).find(|&row| differ[row] && so(asked, row))
    })
}

/// The same of the kept memory's rows; those of the second table are compared rightly.
fn only_rows(made: &mut Made, so: fn(&Row) -> bool) {
    only(made, |asked, row| {
        image::rows(&asked.kept)
            .nth(row)
            .map_or(true, |row| so(&row))
    })
}

/// A count of rows that are gone, of each batch: another count is a difference, at the
/// lowest row that differs.
fn counted(made: &mut Made, count: impl Fn(&Asked, &[bool]) -> u64) {
    made.compare(|asked| {
        let differ = asked.differ();
        let same = count(asked, &asked.gone(0)) == count(asked, &asked.gone(1));
        differ.iter().position(|&differs| differs).filter(|_| !same)
    })
}

fn sum(gone: &[bool]) -> u64 {
    gone.iter().filter(|&&gone| gone).count() as u64
}

pub const MADE: &[Named<fn(&mut Made)>] = &[
    ("the second table is not compared", |made| {
        only(made, |asked, row| row < asked.rows())
    }),
    ("the kept memory's rows are not compared", |made| {
        only(made, |asked, row| row >= asked.rows())
    }),
    ("row 0 is not compared", |made| only(made, |_, row| row > 0)),
    ("the last row is not compared", |made| {
        only(made, |asked, row| row + 1 != asked.rows())
    }),
    ("the first region is not compared", |made| {
        only(made, |asked, row| row != asked.rows())
    }),
    ("the last region is not compared", |made| {
        only(made, |asked, row| {
            row + 1 < asked.rows() + asked.table.len() / 2
        })
    }),
    ("row 999 is not compared", |made| {
        only(made, |_, row| row != 999)
    }),
    ("rows from 128 on are not compared", |made| {
        only(made, |asked, row| row < 128 || row >= asked.rows())
    }),
    ("region 127 is not compared", |made| {
        only(made, |asked, row| row != asked.rows() + 127)
    }),
    ("only last-level rows are compared", |made| {
        only_rows(made, Row::last_level)
    }),
    ("only rows that aren't last-level are compared", |made| {
        only_rows(made, |row| !row.last_level())
    }),
    ("STE rows are not compared", |made| {
        only_rows(made, |row| row.kind() != Kind::Ste)
    }),
    ("CD rows are not compared", |made| {
        only_rows(made, |row| row.kind() != Kind::Cd)
    }),
    ("stage 1 rows are not compared", |made| {
        only_rows(made, |row| row.kind() != Kind::Stage1)
    }),
    ("stage 2 rows are not compared", |made| {
        only_rows(made, |row| row.kind() != Kind::Stage2)
    }),
    ("marked rows are not compared", |made| {
        only_rows(made, |row| row.kind() != Kind::Stage1 || !row.marked())
    }),
    ("global rows are not compared", |made| {
        only_rows(made, |row| row.kind() != Kind::Stage1 || !row.global())
    }),
    ("regions that aren't last-level are not compared", |made| {
        only(made, |asked, row| {
            let region = row.checked_sub(asked.rows());
            let region = region.and_then(|place| region::regions(&asked.table).nth(place));
            region.map_or(true, |region| region.last_level())
        })
    }),
    ("it stops at the first row that is equal", |made| {
        only(made, |asked, row| {
            asked.differ()[..row].iter().all(|&differs| differs)
        })
    }),
    ("it stops at the first row that both take", |made| {
        only(made, |asked, row| {
            let (one, other) = (asked.gone(0), asked.gone(1));
            !(0..row).any(|row| one[row] && other[row])
        })
    }),
    ("it stops at the first empty row", |made| {
        only(made, |asked, row| {
            image::rows(&asked.kept).take(row).all(|row| row.used())
        })
    }),
    ("a proposal that takes more gets a yes", |made| {
        only(made, |asked, row| asked.gone(0)[row])
    }),
    ("a proposal that takes less gets a yes", |made| {
        only(made, |asked, row| asked.gone(1)[row])
    }),
    ("numbers of removed rows are compared", |made| {
        counted(made, |_, gone| sum(gone))
    }),
    (
        "numbers of removed rows of each table are compared",
        |made| {
            counted(made, |asked, gone| {
                let (rows, regions) = gone.split_at(asked.rows());
                sum(rows) << 32 | sum(regions)
            })
        },
    ),
    ("the sum of the rows' numbers is compared", |made| {
        counted(made, |_, gone| {
            (0..gone.len()).filter(|&row| gone[row]).sum::<usize>() as u64
        })
    }),
    ("whether any row goes is compared", |made| {
        counted(made, |_, gone| u64::from(gone.contains(&true)))
    }),
    ("the lowest row that goes is compared", |made| {
        counted(made, |_, gone| {
            gone.iter()
                .position(|&gone| gone)
                .map_or(0, |row| row as u64 + 1)
        })
    }),
    ("rows that go by both are a difference", |made| {
        made.compare(|asked| {
            let (one, other) = (asked.gone(0), asked.gone(1));
            (0..one.len()).find(|&row| one[row] || other[row])
        })
    }),
    ("a row that goes twice in a batch is a difference", |made| {
        let legal = made.asked.legal();
        made.compare(|asked| {
            let times = |batch: usize, row: usize| {
                let effects = asked
                    .commands(batch)
                    .into_iter()
                    .flat_map(|own| legal(own).ok());
                effects.filter(|&effect| asked.scope(effect)[row]).count()
            };
            let rows = asked.rows() + asked.table.len() / 2;
            let few = asked.batches.iter().all(|batch| batch.len() < 1 << 10) && rows < 100;
            let differ = asked.differ();
            let differs = |row: usize| differ[row] || few && times(0, row) != times(1, row);
            (0..rows).find(|&row| differs(row))
        })
    }),
];
