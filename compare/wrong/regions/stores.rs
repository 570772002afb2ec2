//! Runs that store to the tables in another order, store something else, count otherwise,
//! or take rows of the other table.

use super::super::asked::Asked;
use super::super::seen::one_by_one;
use super::Fault as Wrong;
use crate::call::{Call, CUT};
use crate::generate::random::Random;
use crate::lent::{Lent, Memory};
use crate::model::control::Control;
use crate::model::image::{place, rows};
use crate::model::region::{regions, used_regions};
use crate::model::row::{Kind, Row};
use crate::unit;

/// A store of a command for the table.
#[derive(Clone, Copy, PartialEq, Eq)]
pub enum Due {
    Row(usize),
    Control,
}

#[derive(Clone, Copy)]
pub enum Fault {
    /// The stores of such a command in another order, or others.
    Order(fn(&[u64], &mut Vec<Due>)),
    /// What is left of a row that goes.
    Leaves(fn([u64; 2]) -> [u64; 2]),
    /// What a run tells, given how many rows of the table went.
    Counts(fn(&mut [u64], u64)),
    /// Clearing rows of the table takes none of the allowance.
    Free,
    /// Such a command takes rows of the kept memory as well.
    Kept(fn(&Asked, &Row) -> bool),
    /// Other commands take rows of the table as well.
    Table(fn(&Asked) -> bool),
    /// A run that is cut puts back what it took of the table.
    Undone,
}

const ORDERS: [(&str, fn(&[u64], &mut Vec<Due>)); 9] = [
    ("the control word before the table's rows", |_, due| {
        due.rotate_right(1)
    }),
    (
        "the control word before the last of the table's rows",
        |_, due| {
            let count = due.len();
            if count > 1 {
                due.swap(count - 2, count - 1);
            }
        },
    ),
    (
        "the control word behind the first of the table's rows",
        |_, due| {
            if due.len() > 2 {
                let control = due.pop().expect("the control word");
                due.insert(1, control);
            }
        },
    ),
    ("the table's rows from the last down", |_, due| {
        let rows = due.len() - 1;
        due[..rows].reverse();
    }),
    ("the table's rows by size", |table, due| {
        let rows = due.len() - 1;
        due[..rows].sort_by_key(|due| match due {
            Due::Row(row) => table[2 * row] >> 2,
            Due::Control => u64::MAX,
        });
    }),
    ("the table's rows by base", |table, due| {
        let rows = due.len() - 1;
        due[..rows].sort_by_key(|due| match due {
            Due::Row(row) => table[2 * row + 1],
            Due::Control => u64::MAX,
        });
    }),
    ("last-level rows of the table first", |table, due| {
        let rows = due.len() - 1;
        due[..rows].sort_by_key(|due| match due {
            Due::Row(row) => u64::from(table[2 * row] & 2 == 0),
            Due::Control => u64::MAX,
        });
    }),
    ("only one row of the table", |_, due| {
        let control = due.len() - 1;
        due.drain(1.min(control)..control);
    }),
    ("the table's last row that is due stays", |_, due| {
        let control = due.len() - 1;
        if control > 1 {
            due.remove(control - 1);
        }
    }),
];

const OTHERS: [(&str, Fault); 20] = [
    (
        "a region that goes: base cleared",
        Fault::Leaves(|_| [0, 0]),
    ),
    (
        "a region that goes: valid cleared",
        Fault::Leaves(|[word, base]| [word & !1, base]),
    ),
    (
        "a region that goes: base kept in word 0",
        Fault::Leaves(|[_, base]| [0, base | 1]),
    ),
    (
        "a region that goes: all but level cleared",
        Fault::Leaves(|[word, base]| [word & 2, base]),
    ),
    (
        "the table's rows not counted as removed",
        Fault::Counts(|told, gone| told[3] -= gone),
    ),
    (
        "the table's rows not counted as stores",
        Fault::Counts(|told, gone| told[2] -= gone),
    ),
    (
        "the table's rows counted as neither",
        Fault::Counts(|told, gone| {
            told[2] -= gone;
            told[3] -= gone;
        }),
    ),
    (
        "the table's rows counted twice",
        Fault::Counts(|told, gone| told[3] += gone),
    ),
    (
        "the table's rows counted as commands",
        Fault::Counts(|told, gone| told[1] += gone),
    ),
    (
        "one store for all of the table",
        Fault::Counts(|told, gone| told[2] -= gone.saturating_sub(1)),
    ),
    (
        "the table's rows are told apart",
        Fault::Counts(|told, gone| told[7] = gone),
    ),
    ("the table's rows take no allowance", Fault::Free),
    ("the table is put back by a cut", Fault::Undone),
    (
        "70 takes stage rows",
        Fault::Kept(|it, row| it.code() == 0x70 && stage(row)),
    ),
    ("70 takes every row", Fault::Kept(|it, _| it.code() == 0x70)),
    (
        "73 takes stage 2 rows at the address",
        Fault::Kept(|it, row| {
            let here = row.input() == it.high % (1 << 52) >> 12 << 12;
            it.code() == 0x73 && row.kind() == Kind::Stage2 && here
        }),
    ),
    (
        "73 takes stage 1 rows at the address",
        Fault::Kept(|it, row| {
            let here = row.input() == it.high % (1 << 52) >> 12 << 12;
            it.code() == 0x73 && row.kind() == Kind::Stage1 && here
        }),
    ),
    ("30 takes the table", Fault::Table(|it| it.code() == 0x30)),
    ("20 takes the table", Fault::Table(|it| it.code() == 0x20)),
    (
        "CMD_SYNC takes the table",
        Fault::Table(|it| it.code() == 0x46),
    ),
];

pub fn all() -> Vec<(String, Wrong)> {
    let mut all = Vec::new();
    for (name, order) in ORDERS {
        all.push((name.into(), Wrong::Stores(Fault::Order(order))));
    }
    for (name, fault) in OTHERS {
        all.push((name.into(), Wrong::Stores(fault)));
    }
    for (name, fault) in BY_CODE {
        all.push((format!("{name} takes the table"), Wrong::Stores(fault)));
    }
    all
}

/// Every other command that removes rows.
const BY_CODE: [(&str, Fault); 13] = [
    ("03", Fault::Table(|it| it.code() == 0x03)),
    ("04", Fault::Table(|it| it.code() == 0x04)),
    ("05", Fault::Table(|it| it.code() == 0x05)),
    ("06", Fault::Table(|it| it.code() == 0x06)),
    ("10", Fault::Table(|it| it.code() == 0x10)),
    ("11", Fault::Table(|it| it.code() == 0x11)),
    ("12", Fault::Table(|it| it.code() == 0x12)),
    ("13", Fault::Table(|it| it.code() == 0x13)),
    ("21", Fault::Table(|it| it.code() == 0x21)),
    ("22", Fault::Table(|it| it.code() == 0x22)),
    ("23", Fault::Table(|it| it.code() == 0x23)),
    ("28", Fault::Table(|it| it.code() == 0x28)),
    ("2A", Fault::Table(|it| it.code() == 0x2A)),
];

fn stage(row: &Row) -> bool {
    matches!(row.kind(), Kind::Stage1 | Kind::Stage2)
}

impl Fault {
    pub fn perform(self, call: Call, memory: &mut Memory, answer: &mut Lent) -> u64 {
        let before = memory.table().to_vec();
        match self {
            Fault::Leaves(left) => {
                let number = unit::perform(call, memory, answer);
                for (row, old) in before.chunks_exact(2).enumerate() {
                    if memory.table()[2 * row] != old[0] {
                        let left = left([old[0], old[1]]);
                        memory.table_mut()[2 * row..][..2].copy_from_slice(&left);
                    }
                }
                number
            }
            Fault::Counts(told) => {
                let number = unit::perform(call, memory, answer);
                let gone = used_regions(&before) - used_regions(memory.table());
                if number == 0 {
                    told(answer.inner_mut(), gone);
                }
                number
            }
            Fault::Undone => {
                let number = unit::perform(call, memory, answer);
                if number == 0 && answer.inner()[0] == CUT {
                    memory.table_mut().copy_from_slice(&before);
                }
                number
            }
            _ => one_by_one(call, memory, answer, |call, slot, memory, answer| {
                self.command(call, Asked::at(call, slot), memory, answer)
            }),
        }
    }

    /// The run over the only command that waits.
    fn command(self, call: Call, asked: Asked, memory: &mut Memory, answer: &mut Lent) -> u64 {
        match self {
            Fault::Order(order) if asked.takes() => {
                let mut due = due(call, memory);
                order(memory.table(), &mut due);
                store(call, &due, memory, answer.inner_mut())
            }
            Fault::Free if asked.takes() => {
                let rows = due(call, memory).len() as u64 - 1;
                let left = call.numbers()[1];
                let call = with_left(call, left.saturating_add(rows));
                let number = unit::perform(call, memory, answer);
                answer.inner_mut()[2] -= rows;
                number
            }
            Fault::Kept(takes) if asked.takes() => {
                let number = unit::perform(call, memory, answer);
                let own = |row: &Row| row.used() && takes(&asked, row);
                let own: Vec<usize> = rows(memory.inner())
                    .enumerate()
                    .filter(|(_, row)| own(row))
                    .map(|(row, _)| place(row))
                    .collect();
                own.iter().for_each(|&at| memory.inner_mut()[at] = 0);
                count(answer.inner_mut(), own.len());
                number
            }
            Fault::Table(takes) if takes(&asked) => {
                let number = unit::perform(call, memory, answer);
                let used = used_regions(memory.table()) as usize;
                if answer.inner()[1] == 1 {
                    memory
                        .table_mut()
                        .iter_mut()
                        .step_by(2)
                        .for_each(|word| *word = 0);
                    count(answer.inner_mut(), used);
                }
                number
            }
            _ => unit::perform(call, memory, answer),
        }
    }
}

/// So many rows more.
fn count(answer: &mut [u64], rows: usize) {
    answer[2] += rows as u64;
    answer[3] += rows as u64;
}

fn with_left(call: Call, left: u64) -> Call {
    call.passing(&[call.numbers()[0], left])
}

/// The stores that the unit makes for a command for the table, in their order.
fn due(call: Call, memory: &Memory) -> Vec<Due> {
    let mut copy = memory.copy();
    let mut told = Lent::new(&[0; 8], &mut Random::new(0));
    unit::perform(with_left(call, u64::MAX), &mut copy, &mut told);
    let pairs = regions(memory.table())
        .zip(regions(copy.table()))
        .enumerate();
    let gone = pairs.filter(|(_, (old, new))| old != new);
    let rows = gone.map(|(row, _)| Due::Row(row));
    rows.chain([Due::Control]).collect()
}

/// As many of the stores as are allowed, and what is told of them.
fn store(call: Call, due: &[Due], memory: &mut Memory, answer: &mut [u64]) -> u64 {
    let made = &due[..due
        .len()
        .min(call.numbers()[1].try_into().unwrap_or(usize::MAX))];
    answer.fill(0);
    for due in made {
        match due {
            Due::Row(row) => {
                memory.table_mut()[2 * row] = 0;
                answer[3] += 1;
            }
            Due::Control => {
                let control = Control::fields(memory.inner()[0]);
                let rd = (control.rd + 1) % control.ring();
                memory.inner_mut()[0] = Control { rd, ..control }.pack();
                answer[1] = 1;
            }
        }
    }
    answer[0] = if made.len() < due.len() { CUT } else { 2 };
    answer[2] = made.len() as u64;
    0
}
