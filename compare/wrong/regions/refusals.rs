//! 13 and 14 before and after other refusals, with another row, for other lengths and
//! for other rows.

use super::Fault as Wrong;
use crate::call::{Call, NAMES};
use crate::generate::commands::DPT;
use crate::generate::random::Random;
use crate::generate::regions::SIZES;
use crate::lent::{Lent, Memory};
use crate::limits::{table_words, ADDRESS, REGIONS};
use crate::model::control::Control;
use crate::model::region::{accept, regions, Region};
use crate::unit;

#[derive(Clone, Copy)]
pub enum Fault {
    /// The first is given where the second is due before it, by the call.
    Early(usize, u64, u64),
    /// The second is given where the first is due before it.
    Late(usize, u64, u64),
    /// 14 names another row, by the table, the lowest row and the memory's rows.
    Names(fn(&[u64], u64, u64) -> u64),
    /// The call refuses a table with such a row.
    Refuses(usize, fn(&Region) -> bool),
    /// The call takes rows for well formed by seeing them so.
    Accepts(usize, fn(Region) -> Region),
    /// The call takes the table for one of another length.
    Lengths(usize, fn(usize) -> usize),
    /// The call refuses tables of such lengths.
    Unfit(usize, fn(usize) -> bool),
    /// A run doesn't look at its table, if it has such features or such a memory.
    Unchecked(fn(u64, Control) -> bool),
    /// A refusal stores to the table.
    Mends,
}

const RUN: usize = 0;
const TABLE_FILL: usize = 8;
const CHECK_BATCH: usize = 10;

const REFUSED: [(&str, fn(&Region) -> bool); 9] = [
    ("a region that is not last-level", |row| {
        row.used() && !row.last_level()
    }),
    ("a region that is last-level", |row| row.last_level()),
    ("a region of 512GB", |row| row.0[0] >> 2 == 9),
    ("a region of 64GB", |row| row.0[0] >> 2 == 8),
    ("a region at 0", |row| row.used() && row.base() == 0),
    ("a region that ends at 2^52", |row| {
        row.used() && row.base() + row.size().unwrap_or(0) == ADDRESS
    }),
    ("a region from 2^51 on", |row| {
        row.used() && row.base() >= 1 << 51
    }),
    ("an empty row with a base", |row| {
        !row.used() && row.base() != 0
    }),
    ("an empty row with a base that none has", |row| {
        !row.used() && row.base() % 0x1000 != 0
    }),
];

const ACCEPTED: [(&str, fn(Region) -> Region); 14] = [
    (
        "a region that isn't valid",
        |Region([word, base])| match word {
            0 => Region([word, base]),
            _ => Region([word | 1, base]),
        },
    ),
    ("size code 10", |row| recoded(row, |code| code == 10)),
    ("size codes from 10 on", |row| recoded(row, |code| code > 9)),
    ("size code 15", |row| recoded(row, |code| code == 15)),
    ("bit 6 of a region", |Region([word, base])| {
        Region([word & !(1 << 6), base])
    }),
    ("bit 63 of a region", |Region([word, base])| {
        Region([word & !(1 << 63), base])
    }),
    (
        "the upper half of a region's word 0",
        |Region([word, base])| Region([word & 0xFFFF_FFFF, base]),
    ),
    ("a base of 2^52", |Region([word, base])| match base {
        ADDRESS => Region([word, 0]),
        _ => Region([word, base]),
    }),
    ("a base from 2^52 on", |Region([word, base])| {
        Region([word, base % ADDRESS])
    }),
    ("a base of the upper half", |Region([word, base])| {
        match base >> 52 {
            0xFFF => Region([word, base % ADDRESS]),
            _ => Region([word, base]),
        }
    }),
    ("a base off by bytes", |Region([word, base])| {
        Region([word, base >> 12 << 12])
    }),
    ("a base off its size", |row| aligned(row, 0)),
    ("a base off its size by its top bit", |row| aligned(row, 1)),
    ("any base", |Region([word, _])| Region([word, 0])),
];

const LENGTHS: [(&str, fn(usize) -> usize); 8] = [
    ("an odd length without its last word", |length| {
        length / 2 * 2
    }),
    ("no table as an empty row", |length| length.max(2)),
    (
        "129 rows",
        |length| if length == 258 { 256 } else { length },
    ),
    ("any more rows", |length| {
        if length % 2 == 0 {
            length.min(256)
        } else {
            length
        }
    }),
    (
        "257 words",
        |length| if length == 257 { 256 } else { length },
    ),
    ("a length of 16 bits", |length| length % (1 << 16)),
    ("a length of 20 bits", |length| length % (1 << 20)),
    ("one word", |length| if length == 1 { 2 } else { length }),
];

const UNFIT: [(&str, fn(usize) -> bool); 4] = [
    ("128 rows", |length| length == table_words(REGIONS)),
    ("one row", |length| length == 2),
    ("an odd number of rows", |length| length % 4 == 2),
    ("64 rows and more", |length| length >= 128),
];

const OTHERS: [(&str, Fault); 13] = [
    (
        "14 names the highest row",
        Fault::Names(|table, _, _| {
            let bad = regions(table).collect::<Vec<_>>();
            let last = bad.iter().rposition(|row| !row.acceptable());
            last.unwrap_or(0) as u64
        }),
    ),
    ("14 counts from 1", Fault::Names(|_, lowest, _| lowest + 1)),
    (
        "14 counts from the memory's rows",
        Fault::Names(|_, lowest, rows| lowest + rows),
    ),
    ("14 names a word", Fault::Names(|_, lowest, _| 2 * lowest)),
    ("14 names no row", Fault::Names(|_, _, _| 0)),
    (
        "14 names rows of seven bits less one",
        Fault::Names(|_, lowest, _| lowest.min(126)),
    ),
    (
        "14 counts bad rows",
        Fault::Names(|table, _, _| regions(table).filter(|row| !row.acceptable()).count() as u64),
    ),
    (
        "the table is checked with DPT alone",
        Fault::Unchecked(|features, _| features & DPT == 0),
    ),
    (
        "the table is not checked where the queue is off",
        Fault::Unchecked(|_, control| !control.enabled),
    ),
    (
        "the table is not checked where an error is active",
        Fault::Unchecked(|_, control| control.active()),
    ),
    (
        "the table is not checked where the queue is empty",
        Fault::Unchecked(|_, control| control.rd == control.wr),
    ),
    (
        "the table is never checked by a run",
        Fault::Unchecked(|_, _| true),
    ),
    ("14 empties the row", Fault::Mends),
];

pub fn all() -> Vec<(String, Wrong)> {
    let mut all = Vec::new();
    let mut add = |name: String, fault| all.push((name, Wrong::Refusals(fault)));
    for call in [RUN, TABLE_FILL] {
        let name = NAMES[call];
        for own in [13, 14] {
            for other in [1, 2, 3] {
                let what = format!("{name}: {own} before {other}");
                add(what, Fault::Early(call, own, other));
            }
            let after: &[u64] = if call == RUN { &[4] } else { &[7, 8, 9] };
            for &other in after {
                let what = format!("{name}: {other} before {own}");
                add(what, Fault::Late(call, own, other));
            }
        }
        add(format!("{name}: 14 before 13"), Fault::Early(call, 14, 13));
    }
    for call in [RUN, TABLE_FILL, CHECK_BATCH] {
        let name = NAMES[call];
        for (what, test) in REFUSED {
            add(
                format!("{name}: {what} refused"),
                Fault::Refuses(call, test),
            );
        }
        for (what, made) in ACCEPTED {
            add(
                format!("{name}: {what} accepted"),
                Fault::Accepts(call, made),
            );
        }
        for (what, seen) in LENGTHS {
            add(
                format!("{name}: {what} accepted"),
                Fault::Lengths(call, seen),
            );
        }
        for (what, test) in UNFIT {
            add(
                format!("{name}: a table of {what} refused"),
                Fault::Unfit(call, test),
            );
        }
    }
    for (name, fault) in OTHERS {
        all.push((name.into(), Wrong::Refusals(fault)));
    }
    all
}

/// A code that is none as 4KB.
fn recoded(Region([word, base]): Region, of: fn(u64) -> bool) -> Region {
    match of(word >> 2 & 15) {
        true => Region([word & !(15 << 2), base]),
        false => Region([word, base]),
    }
}

/// The base without what is off the size, but for so many of its bits from the top.
fn aligned(Region([word, base]): Region, but: u64) -> Region {
    match SIZES.get(word as usize >> 2 & 15) {
        Some(size) if but == 0 => Region([word, base >> size << size]),
        Some(size) => Region([word, base & !(1 << (size - but))]),
        None => Region([word, base]),
    }
}

impl Fault {
    pub fn perform(self, call: Call, memory: &mut Memory, answer: &mut Lent) -> u64 {
        if !matches!(call.index(), RUN | TABLE_FILL | CHECK_BATCH) {
            return unit::perform(call, memory, answer);
        }
        match self {
            Fault::Accepts(of, made) if of == call.index() => {
                let rows = regions(memory.table()).map(|row| match row.acceptable() {
                    true => row.0,
                    false => made(row).0,
                });
                let mut table = rows.collect::<Vec<_>>().concat();
                table.extend_from_slice(&memory.table()[table.len()..]);
                seen(call, memory, answer, &table)
            }
            Fault::Lengths(of, length) if of == call.index() => {
                let mut table = memory.table().to_vec();
                table.resize(length(table.len()), 0);
                seen(call, memory, answer, &table)
            }
            Fault::Unchecked(so) => match call {
                Call::Run { features, .. } => {
                    let word = memory.inner().first().copied().unwrap_or(0);
                    match so(features, Control::fields(word)) && accept(memory.table()).is_err() {
                        true => seen(call, memory, answer, &[0, 0]),
                        false => unit::perform(call, memory, answer),
                    }
                }
                _ => unit::perform(call, memory, answer),
            },
            _ => self.refused(call, memory, answer),
        }
    }

    /// Another refusal than the unit's, or more that comes of it.
    fn refused(self, call: Call, memory: &mut Memory, answer: &mut Lent) -> u64 {
        let before = memory.copy();
        let number = unit::perform(call, memory, answer);
        let table = before.table();
        let own = accept(table).err().map(|refusal| refusal.number());
        let lowest = regions(table).position(|row| !row.acceptable());
        let told = match self {
            Fault::Early(of, 14, 13) if of == call.index() && number == 13 => {
                lowest.map(|row| (14, row as u64))
            }
            Fault::Early(of, early, due) if of == call.index() && number == due => {
                let row = if early == 14 { lowest.unwrap_or(0) } else { 0 };
                (own == Some(early)).then_some((early, row as u64))
            }
            Fault::Late(of, late, first) if of == call.index() && number == late => {
                applies(call, &before, first).then_some((first, 0))
            }
            Fault::Names(named) if number == 14 => {
                let rows = before.inner().len() as u64 / 4;
                Some((14, named(table, answer.inner()[0], rows)))
            }
            Fault::Refuses(of, test) if of == call.index() && matches!(number, 0 | 4..) => {
                let bad = |row: Region| row.acceptable() && test(&row);
                let row = regions(table).position(bad).map(|row| row as u64);
                let first = |&row: &u64| number != 14 || row < answer.inner()[0];
                row.filter(first)
                    .filter(|_| number != 13)
                    .map(|row| (14, row))
            }
            Fault::Unfit(of, test) if of == call.index() && matches!(number, 0 | 4..) => {
                test(table.len()).then_some((13, 0))
            }
            Fault::Mends if number == 14 => {
                memory.table_mut()[2 * answer.inner()[0] as usize] = 0;
                None
            }
            _ => None,
        };
        let Some((told, row)) = told else {
            return number;
        };
        memory.take(&before);
        answer.inner_mut().fill(0);
        answer.inner_mut()[0] = row;
        told
    }
}

/// Whether a refusal that comes after 13 and 14 would be due without these.
fn applies(call: Call, before: &Memory, number: u64) -> bool {
    let table = before.table();
    match call {
        Call::Run { queue, .. } => {
            let slots = Control::fields(before.inner()[0]).slots();
            number == 4 && queue.len() as u64 != 16 * slots
        }
        Call::TableFill { row, words, .. } => {
            let rows = table.len() as u64 / 2;
            match number {
                7 => row >= rows,
                8 => row < rows && table[2 * row as usize] != 0,
                _ => !Region(words).sound(),
            }
        }
        _ => false,
    }
}

/// The call on a table that is seen otherwise; what is stored is stored in the one that
/// is there.
fn seen(call: Call, memory: &mut Memory, answer: &mut Lent, table: &[u64]) -> u64 {
    let mut copy = Memory::new(memory.inner(), table, &mut Random::new(0));
    let number = unit::perform(call, &mut copy, answer);
    memory.inner_mut().copy_from_slice(copy.inner());
    let stored = copy.table().iter().zip(table);
    for (word, (new, old)) in memory.table_mut().iter_mut().zip(stored) {
        if new != old {
            *word = *new;
        }
    }
    number
}
