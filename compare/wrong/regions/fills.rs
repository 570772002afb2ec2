//! Fills of the table that store otherwise, tell otherwise, or are refused otherwise.

use super::Fault as Wrong;
use crate::call::Call;
use crate::generate::random::Random;
use crate::generate::regions::SIZES;
use crate::lent::{Lent, Memory};
use crate::limits::{ADDRESS, REGIONS};
use crate::model::region::{regions, Region};
use crate::unit;

#[derive(Clone, Copy)]
pub enum Fault {
    /// What a fill that is carried out makes of table and answer.
    Done(fn(&mut Done)),
    /// A fill that is carried out is refused with this, if it is so.
    Refused(fn(&[u64], u64, Region) -> Option<u64>),
    /// Words are taken for well formed by seeing them so.
    Fits(fn(Region) -> Region),
    /// Words that are well formed are refused.
    Unfit(fn(&Region) -> bool),
    /// The refusal isn't asked.
    Unasked(u64),
    /// The first refusal is given where the second is due before it.
    Before(u64, u64),
    /// A refused fill stores the base.
    Stored(u64),
    /// The number of the row is read so.
    Row(fn(u64) -> u64),
}

/// A fill that was carried out: the table before it, the place of its row, and what it
/// was passed, left and told.
pub struct Done<'a> {
    before: &'a [u64],
    at: usize,
    words: [u64; 2],
    allowance: u64,
    memory: &'a mut Memory,
    answer: &'a mut [u64],
}

const DONE: [(&str, fn(&mut Done)); 16] = [
    ("word 0 first", |it| {
        if it.answer[1] == 1 {
            it.put(0, it.words[0]);
            it.put(1, it.before[it.at + 1]);
        }
    }),
    ("both words by one store", |it| {
        if it.answer[1] == 1 {
            it.put(0, it.words[0]);
            it.answer[0] = 0;
        }
    }),
    ("both words or none", |it| {
        if it.answer[1] == 1 {
            it.put(1, it.before[it.at + 1]);
            it.answer[1] = 0;
        }
    }),
    ("one store told", |it| it.answer[1] = it.answer[1].min(1)),
    ("four stores told", |it| {
        if it.answer[0] == 0 {
            it.answer[1] = 4;
        }
    }),
    ("Cut at two", |it| {
        if it.allowance == 2 {
            it.answer[0] = 1;
        }
    }),
    ("Filled at one", |it| {
        if it.allowance == 1 {
            it.answer[0] = 0;
        }
    }),
    ("the allowance not asked", |it| {
        it.put(0, it.words[0]);
        it.put(1, it.words[1]);
        it.answer[..2].copy_from_slice(&[0, 2]);
    }),
    ("four stores needed", |it| {
        if it.allowance < 4 {
            it.put(0, 0);
            it.answer[0] = 1;
            it.answer[1] = it.answer[1].min(1);
        }
    }),
    ("goes on where it was cut", |it| {
        if it.allowance == 1 && it.before[it.at + 1] == it.words[1] {
            it.put(0, it.words[0]);
            it.answer[0] = 0;
        }
    }),
    ("a base that is there is no store", |it| {
        if it.answer[0] == 0 && it.before[it.at + 1] == it.words[1] {
            it.answer[1] = 1;
        }
    }),
    ("the base without its low bits", |it| {
        let base = it.memory.table()[it.at + 1];
        it.put(1, base & !0xF_FFFF);
    }),
    ("last-level always", |it| {
        if it.answer[0] == 0 {
            it.put(0, it.words[0] | 2);
        }
    }),
    ("the row above as well", |it| {
        let next = it.at + 2;
        if it.answer[0] == 0 && next < it.before.len() && it.before[next] == 0 {
            it.memory.table_mut()[next + 1] = it.words[1];
        }
    }),
    ("the control word stored", |it| {
        it.memory.inner_mut()[0] ^= 1 << 49;
    }),
    ("the used rows told", |it| {
        it.answer[2] = regions(it.before).filter(Region::used).count() as u64;
    }),
];

const FITS: [(&str, fn(Region) -> Region); 12] = [
    ("size code 10", |row| recoded(row, |code| code == 10)),
    ("size codes from 10 on", |row| recoded(row, |code| code > 9)),
    ("size code 15", |row| recoded(row, |code| code == 15)),
    ("a base of 2^52", |Region([word, base])| match base {
        ADDRESS => Region([word, 0]),
        _ => Region([word, base]),
    }),
    ("a base from 2^52 on", |Region([word, base])| {
        Region([word, base % ADDRESS])
    }),
    ("a base off its size", |Region([word, base])| {
        match SIZES.get(word as usize >> 2 & 15) {
            Some(size) => Region([word, base >> size << size]),
            None => Region([word, base]),
        }
    }),
    ("a base off by bytes", |Region([word, base])| {
        Region([word, base >> 12 << 12])
    }),
    ("bit 6", |Region([word, base])| {
        Region([word & !(1 << 6), base])
    }),
    ("bit 63", |Region([word, base])| {
        Region([word & !(1 << 63), base])
    }),
    ("bits above 31", |Region([word, base])| {
        Region([word & 0xFFFF_FFFF, base])
    }),
    ("valid 0", |Region([word, base])| match word {
        0 => Region([word, base]),
        _ => Region([word | 1, base]),
    }),
    ("an empty row", |Region([word, base])| match word {
        0 => Region([1, 0]),
        _ => Region([word, base]),
    }),
];

const UNFIT: [(&str, fn(&Region) -> bool); 6] = [
    ("that are not last-level", |row| !row.last_level()),
    ("of 512GB", |row| row.0[0] >> 2 == 9),
    ("of 4KB", |row| row.0[0] >> 2 == 0),
    ("at 0", |row| row.base() == 0),
    ("that end at 2^52", |row| {
        row.base() + row.size().unwrap_or(0) == ADDRESS
    }),
    ("from 2^51 on", |row| row.base() >= 1 << 51),
];

const OTHERS: [(&str, Fault); 17] = [
    ("7 not asked", Fault::Row(|row| row % REGIONS)),
    ("a row of 32 bits", Fault::Row(|row| row & 0xFFFF_FFFF)),
    ("a row of 63 bits", Fault::Row(|row| row & (u64::MAX >> 1))),
    ("rows from 1 on", Fault::Row(|row| row.wrapping_sub(1))),
    ("8 not asked", Fault::Unasked(8)),
    ("9 not asked", Fault::Unasked(9)),
    ("9 before 8", Fault::Before(9, 8)),
    ("9 before 7", Fault::Before(9, 7)),
    ("7 stores", Fault::Stored(7)),
    ("8 stores the base", Fault::Stored(8)),
    ("9 stores the base", Fault::Stored(9)),
    (
        "the last row refused",
        Fault::Refused(|_, row, _| (row == REGIONS - 1).then_some(7)),
    ),
    (
        "the first row refused",
        Fault::Refused(|_, row, _| (row == 0).then_some(7)),
    ),
    (
        "11 for the same region",
        Fault::Refused(|table, _, new| regions(table).any(|old| old == new).then_some(11)),
    ),
    (
        "11 for a region that it shares",
        Fault::Refused(|table, _, new| {
            regions(table)
                .any(|old| old.used() && shares(&old, &new))
                .then_some(11)
        }),
    ),
    (
        "11 for two last-level regions",
        Fault::Refused(|table, _, new| {
            let leaf = |row: &Region| row.used() && row.last_level();
            let any = regions(table).any(|old| leaf(&old) && leaf(&new) && shares(&old, &new));
            any.then_some(11)
        }),
    ),
    (
        "8 for a row with a base",
        Fault::Refused(|table, row, _| (table[2 * row as usize + 1] != 0).then_some(8)),
    ),
];

pub fn all() -> Vec<(String, Wrong)> {
    let mut all = Vec::new();
    let mut add = |name: String, fault| all.push((name, Wrong::Fills(fault)));
    for (name, done) in DONE {
        add(format!("table_fill: {name}"), Fault::Done(done));
    }
    for (name, made) in FITS {
        add(format!("table_fill: words with {name}"), Fault::Fits(made));
    }
    for (name, test) in UNFIT {
        add(
            format!("table_fill: words {name} refused"),
            Fault::Unfit(test),
        );
    }
    for (name, fault) in OTHERS {
        add(format!("table_fill: {name}"), fault);
    }
    all
}

fn recoded(Region([word, base]): Region, of: fn(u64) -> bool) -> Region {
    match of(word >> 2 & 15) {
        true => Region([word & !(15 << 2), base]),
        false => Region([word, base]),
    }
}

fn shares(one: &Region, other: &Region) -> bool {
    let end = |row: &Region| row.base() + row.size().unwrap_or(0);
    one.base() < end(other) && other.base() < end(one)
}

impl Done<'_> {
    /// A word of the row.
    fn put(&mut self, word: usize, value: u64) {
        self.memory.table_mut()[self.at + word] = value;
    }
}

impl Fault {
    pub fn perform(self, call: Call, memory: &mut Memory, answer: &mut Lent) -> u64 {
        let Call::TableFill {
            row,
            words,
            allowance,
        } = call
        else {
            return unit::perform(call, memory, answer);
        };
        if let Fault::Row(read) = self {
            let call = call.passing(&[read(row), words[0], words[1], allowance]);
            return unit::perform(call, memory, answer);
        }
        let before = memory.copy();
        let number = unit::perform(call, memory, answer);
        let fill = (row, words, allowance);
        self.after(fill, (&before, number), memory, answer)
    }

    /// What comes back, once the unit was called.
    fn after(
        self,
        (row, words, allowance): (u64, [u64; 2], u64),
        (before, number): (&Memory, u64),
        memory: &mut Memory,
        answer: &mut Lent,
    ) -> u64 {
        let at = 2 * row as usize;
        match (self, number) {
            (Fault::Done(done), 0) => done(&mut Done {
                before: before.table(),
                at,
                words,
                allowance,
                memory,
                answer: answer.inner_mut(),
            }),
            (Fault::Refused(refused), 0) => {
                if let Some(number) = refused(before.table(), row, Region(words)) {
                    return refuse(number, before, memory, answer);
                }
            }
            (Fault::Unfit(test), 0) if test(&Region(words)) => {
                return refuse(9, before, memory, answer);
            }
            (Fault::Fits(made), 9) => {
                return fill(
                    (row, words, made(Region(words)).0, allowance),
                    memory,
                    answer,
                )
            }
            (Fault::Unasked(of), _) if of == number => {
                let stores = allowance.min(2);
                for word in [1, 0].into_iter().take(stores as usize) {
                    memory.table_mut()[at + word] = words[word];
                }
                answer.inner_mut()[..2].copy_from_slice(&[u64::from(stores < 2), stores]);
                return 0;
            }
            (Fault::Before(early, due), _) if due == number && !Region(words).sound() => {
                return early;
            }
            (Fault::Stored(of), _) if of == number && allowance > 0 => {
                let at = at.min(memory.table().len() - 2);
                memory.table_mut()[at + 1] = words[1];
            }
            _ => (),
        }
        number
    }
}

fn refuse(number: u64, before: &Memory, memory: &mut Memory, answer: &mut Lent) -> u64 {
    memory.take(before);
    answer.inner_mut().fill(0);
    number
}

/// A fill that goes by other words than those that it stores.
fn fill(
    (row, words, seen, allowance): (u64, [u64; 2], [u64; 2], u64),
    memory: &mut Memory,
    answer: &mut Lent,
) -> u64 {
    let call = Call::TableFill {
        row,
        words: seen,
        allowance,
    };
    let mut told = Lent::new(&[0; 8], &mut Random::new(0));
    let number = unit::perform(call, memory, &mut told);
    answer.inner_mut().copy_from_slice(told.inner());
    if number == 0 {
        let at = 2 * row as usize;
        for word in [1, 0].into_iter().take(told.inner()[1] as usize) {
            memory.table_mut()[at + word] = words[word];
        }
    }
    number
}
