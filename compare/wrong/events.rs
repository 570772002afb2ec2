//! Wrong units that record events otherwise (document 02, T-01).

mod reads;
mod refusals;
mod writes;

use super::Around;
use crate::call::{Call, Reply, EVENT_CALLS, WRITE_CUT};
use crate::generate::random::Random;
use crate::lent::{Lent, Memory};
use crate::model::events::Index;
use crate::unit;

#[derive(Clone, Copy)]
pub enum Fault {
    /// What is made of a call that the unit has answered.
    Made(fn(&mut Made)),
    /// The five stores of a write come in this order.
    Order([usize; 5]),
    /// The record is taken for another.
    Record(fn([u8; 32]) -> [u8; 32]),
    /// A call takes this bit of the index word for 0.
    Unread(usize, u32),
    /// Of two refusals that are due the later one is given.
    Before(u64, u64),
}

/// Every wrong unit with its name.
pub fn all() -> Vec<(String, Fault)> {
    let made = [writes::MADE, reads::MADE, refusals::MADE].concat();
    let made = made
        .into_iter()
        .map(|(name, made)| (name, Fault::Made(made)));
    let orders = writes::ORDERS.map(|(name, order)| (name, Fault::Order(order)));
    let records = writes::RECORDS.map(|(name, made)| (name, Fault::Record(made)));
    let named = made.chain(orders).chain(records);
    let mut all: Vec<_> = named
        .map(|(name, fault)| (format!("events: {name}"), fault))
        .collect();
    all.extend(refusals::all());
    all
}

const OVERFLOW: u64 = 1 << 40;
const SEEN: u64 = 1 << 41;

/// A call with the words before it, and what the wrong unit makes of it; at first
/// that is what the unit made.
pub struct Made<'a> {
    call: Call<'a>,
    before: &'a [u64],
    number: u64,
    after: Vec<u64>,
    answer: [u64; 8],
}

impl Fault {
    /// Puts the fault into a call that the unit has answered; the number that is
    /// returned then.
    pub fn spoil(self, call: Call, around: Around) -> u64 {
        if !EVENT_CALLS.contains(&call.index()) {
            return around.number;
        }
        let mut made = Made {
            call,
            before: around.before,
            number: around.number,
            after: around.kept.inner().to_vec(),
            answer: std::array::from_fn(|word| around.answer.inner()[word]),
        };
        match self {
            Fault::Made(make) => make(&mut made),
            Fault::Order(order) => made.reorder(order),
            Fault::Record(other) => made.misread(other),
            Fault::Unread(of, bit) if of == call.index() => made.without(bit),
            Fault::Unread(..) => (),
            Fault::Before(later, due) => made.give_later(later, due),
        }
        around.kept.inner_mut().copy_from_slice(&made.after);
        around.answer.inner_mut().copy_from_slice(&made.answer);
        made.number
    }
}

impl Made<'_> {
    fn index(&self) -> Index {
        Index::fields(self.before[0])
    }

    /// The record and the allowance of a write that was carried out.
    fn written(&self) -> Option<(&[u8; 32], u64)> {
        match self.call {
            Call::EventWrite { record, allowance } if self.number == 0 => Some((record, allowance)),
            _ => None,
        }
    }

    /// A write that ended so.
    fn ends(&self, end: u64) -> bool {
        self.written().is_some() && self.answer[0] == end
    }

    /// The write was of a record, and not dropped.
    fn placed(&self) -> bool {
        self.written().is_some() && !self.index().full()
    }

    fn allowance(&self) -> u64 {
        self.written().map_or(0, |(_, allowance)| allowance)
    }

    /// A read that was carried out.
    fn reads(&self) -> bool {
        self.number == 0 && matches!(self.call, Call::EventRead)
    }

    /// An acknowledge that was carried out.
    fn acknowledges(&self) -> bool {
        self.number == 0 && matches!(self.call, Call::EventAcknowledge)
    }

    /// The four words that were in the slot of an index.
    fn slot(&self, index: u64) -> [u64; 4] {
        let first = self.index().place(index);
        std::array::from_fn(|word| self.before[first + word])
    }

    /// The index word with its fields exchanged.
    fn put(&mut self, made: impl Fn(Index) -> Index) {
        self.after[0] = made(Index::fields(self.after[0])).pack();
    }

    /// The write told otherwise.
    fn tell(&mut self, end: u64, stores: u64) {
        self.answer[..2].copy_from_slice(&[end, stores]);
    }

    fn refuse(&mut self, number: u64) {
        self.after = self.before.to_vec();
        self.answer = [0; 8];
        self.number = number;
    }

    /// What the unit makes of a call on other words.
    fn asked(&self, words: &[u64], call: Call) -> (Vec<u64>, Reply) {
        let mut random = Random::new(0);
        let mut kept = Memory::new(words, &[], &mut random);
        let mut answer = Lent::new(&[0; 8], &mut random);
        let number = unit::perform(call, &mut kept, &mut answer);
        let answer = std::array::from_fn(|word| answer.inner()[word]);
        (kept.inner().to_vec(), Reply { number, answer })
    }

    /// The unit's reply to the same call on other words, if it takes them. What it
    /// leaves there is returned.
    fn taken(&mut self, words: &[u64]) -> Option<Vec<u64>> {
        let (after, reply) = self.asked(words, self.call);
        if matches!(reply.number, 15 | 16) {
            return None;
        }
        self.number = reply.number;
        self.answer = reply.answer;
        Some(after)
    }

    fn reorder(&mut self, order: [usize; 5]) {
        if !self.placed() {
            return;
        }
        let Call::EventWrite { record, .. } = self.call else {
            return;
        };
        let allowance = u64::MAX;
        let (whole, _) = self.asked(self.before, Call::EventWrite { record, allowance });
        let first = self.index().place(self.index().wr);
        let places = [first, first + 1, first + 2, first + 3, 0];
        self.after = self.before.to_vec();
        for store in &order[..self.answer[1] as usize] {
            let place = places[*store];
            self.after[place] = whole[place];
        }
    }

    fn misread(&mut self, other: fn([u8; 32]) -> [u8; 32]) {
        if let Call::EventWrite { record, allowance } = self.call {
            let record = &other(*record);
            let call = Call::EventWrite { record, allowance };
            (self.after, _) = self.asked(self.before, call);
        }
    }

    /// The bit comes back as it was.
    fn without(&mut self, bit: u32) {
        let mut words = self.before.to_vec();
        if self.number != 16 || words[0] >> bit & 1 == 0 {
            return;
        }
        words[0] ^= 1 << bit;
        if let Some(after) = self.taken(&words) {
            self.after = after;
            self.after[0] ^= 1 << bit;
        }
    }

    fn give_later(&mut self, later: u64, due: u64) {
        let Some(&word) = self.before.first() else {
            return;
        };
        let index = Index::fields(word);
        let also = match (later, self.call) {
            (16, _) => word >> 47 != 0,
            (17, Call::EventRead) => index.rd == index.wr,
            (18, Call::EventAcknowledge) => !index.outstanding(),
            _ => false,
        };
        if self.number == due && also {
            self.number = later;
        }
    }
}

/// A write that was cut short of its record's last store.
fn cut(made: &Made) -> bool {
    made.ends(WRITE_CUT) && made.placed()
}
