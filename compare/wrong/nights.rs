//! Wrong units that do something else where a call is cut or made again (document 02,
//! T-14). They remember the last call, as the unit never does.

mod cuts;
mod repeats;
mod retries;

use crate::call::{Call, Reply, NUMBERS};
use crate::generate::random::Random;
use crate::lent::{Lent, Memory};
use crate::phases::nights::is_cut;
use crate::unit;
use std::sync::Mutex;

/// What is made of a call that the unit has answered.
#[derive(Clone, Copy)]
pub struct Fault {
    make: fn(&mut Made),
}

/// Every wrong unit with its name.
pub fn all() -> impl Iterator<Item = (String, Fault)> {
    let all = [cuts::ALL, retries::ALL, repeats::ALL].concat();
    all.into_iter()
        .map(|(name, make)| (format!("nights: {name}"), Fault { make }))
}

/// A call by its numbers but for the allowance, the stores of its last try if that was
/// cut, and how often it has finished in a row.
#[derive(Clone, Default)]
struct Last {
    call: (usize, Vec<u64>),
    cut: Option<u64>,
    finished: u64,
}

static LAST: Mutex<Option<Last>> = Mutex::new(None);

/// The call's index and its numbers but for the allowance.
fn key(call: &Call) -> (usize, Vec<u64>) {
    let names = NUMBERS[call.index()].iter();
    let pairs = names.zip(call.numbers());
    let kept = pairs.filter(|((name, _), _)| *name != "allowance");
    (call.index(), kept.map(|(_, number)| number).collect())
}

/// A call that the unit has answered: what came before it, the words before it, and what
/// the wrong unit makes of it; at first that is what the unit made.
struct Made<'a> {
    call: Call<'a>,
    last: Last,
    before: Memory,
    memory: &'a mut Memory,
    number: u64,
    answer: [u64; 8],
}

impl Fault {
    /// Makes the call as `unit::perform` does, with the fault.
    pub fn perform(self, call: Call, memory: &mut Memory, answer: &mut Lent) -> u64 {
        let mut last = LAST.lock().expect("no panic");
        let known = last.take().filter(|last| last.call == key(&call));
        let before = memory.copy();
        let number = unit::perform(call, memory, answer);
        let mut made = Made {
            call,
            last: known.unwrap_or_default(),
            before,
            memory,
            number,
            answer: std::array::from_fn(|word| answer.inner()[word]),
        };
        (self.make)(&mut made);
        answer.inner_mut().copy_from_slice(&made.answer);
        *last = Some(made.remembered());
        made.number
    }
}

impl Made<'_> {
    fn remembered(&self) -> Last {
        let reply = Reply {
            number: self.number,
            answer: self.answer,
        };
        let cut = is_cut(&self.call, &reply);
        Last {
            call: key(&self.call),
            cut: cut.then(|| self.stores()),
            finished: self.last.finished + u64::from(!cut),
        }
    }

    /// How many stores it told.
    fn stores(&self) -> u64 {
        match self.call {
            Call::Run { .. } => self.answer[2],
            _ => self.answer[1],
        }
    }

    /// It was carried out and ended so.
    fn ends(&self, end: u64) -> bool {
        self.number == 0 && self.answer[0] == end
    }

    /// The stores of the same call before it, if that was cut and this one isn't.
    fn retried(&self) -> Option<u64> {
        let reply = Reply {
            number: self.number,
            answer: self.answer,
        };
        let finished = self.number == 0 && !is_cut(&self.call, &reply);
        self.last.cut.filter(|_| finished)
    }

    /// It has finished twice already: in the night without cuts and in the one with them.
    fn repeated(&self) -> bool {
        self.last.finished >= 2
    }

    /// The first word that a fill stores to, of either table.
    fn row(&self) -> usize {
        match self.call {
            Call::Fill { row, .. } => 1 + 4 * row as usize,
            Call::TableFill { row, .. } => 2 * row as usize,
            _ => 0,
        }
    }

    /// A word comes to stand as it was before the call.
    fn restore(&mut self, place: usize) {
        self.memory.inner_mut()[place] = self.before.inner()[place];
    }

    /// The same of the second table.
    fn restore_region(&mut self, place: usize) {
        self.memory.table_mut()[place] = self.before.table()[place];
    }

    /// The call once more, behind itself.
    fn once_more(&mut self) {
        let garbage = &mut Random::new(0);
        let mut answer = Lent::new(&[0; 8], garbage);
        unit::perform(self.call, self.memory, &mut answer);
    }

    /// Another number with an answer of these words.
    fn tell(&mut self, number: u64, words: &[u64]) {
        self.number = number;
        self.answer = [0; 8];
        self.answer[..words.len()].copy_from_slice(words);
    }
}
