//! A batch, and what a wrong unit makes of it.

use super::Named;
use crate::call::Call;
use crate::lent::{Lent, Memory};
use crate::model::control::Control;
use crate::unit;

/// A batch with what it was lent before, and what the wrong unit makes of it; at first
/// that is what the unit made.
pub struct Made<'a> {
    pub commands: &'a [u64],
    pub features: u64,
    pub before: Vec<u64>,
    pub old: Vec<u8>,
    pub number: u64,
    pub answer: [u64; 8],
    pub kept: Vec<u64>,
    pub queue: Vec<u8>,
}

impl<'a> Made<'a> {
    pub fn of(
        (commands, features): (&'a [u64], u64),
        memory: &mut Memory,
        answer: &mut Lent,
    ) -> Made<'a> {
        let (before, old) = (memory.inner().to_vec(), memory.bytes().to_vec());
        let call = Call::WriteBatch { commands, features };
        let number = unit::perform(call, memory, answer);
        Made {
            commands,
            features,
            before,
            old,
            number,
            answer: std::array::from_fn(|word| answer.inner()[word]),
            kept: memory.inner().to_vec(),
            queue: memory.bytes().to_vec(),
        }
    }

    /// The number that is returned, once the fault is put into it.
    pub fn spoil(mut self, made: fn(&mut Made), memory: &mut Memory, answer: &mut Lent) -> u64 {
        made(&mut self);
        memory.inner_mut().copy_from_slice(&self.kept);
        memory.bytes_mut().copy_from_slice(&self.queue);
        answer.inner_mut().copy_from_slice(&self.answer);
        self.number
    }

    /// Whether it was carried out and had commands.
    pub fn some(&self) -> bool {
        self.number == 0 && self.count() > 0
    }

    /// The whole commands.
    pub fn count(&self) -> u64 {
        self.commands.len() as u64 / 16
    }

    /// The control word before.
    pub fn control(&self) -> Control {
        Control::fields(self.before.first().copied().unwrap_or(0))
    }

    pub fn free(&self) -> u64 {
        let control = self.control();
        control.slots().saturating_sub(control.distance(control.wr))
    }

    pub fn named(&self, number: u64) -> Named {
        let words = &self.commands[16 * number as usize..][..16];
        Named {
            fields: words.try_into().expect("sixteen words"),
            features: self.features,
        }
    }

    /// The refusal of each command by itself; of one that isn't whole 21.
    pub fn own(&self) -> Vec<u64> {
        let whole = (0..self.count()).map(|number| self.named(number).on_unit(0).0);
        let broken = (self.commands.len() % 16 != 0).then_some(21);
        whole.chain(broken).collect()
    }

    /// One of the commands at an index.
    pub fn put(&mut self, number: u64, index: u64) {
        let (told, command) = self.named(number).on_unit(0);
        let start = 16 * (index % self.control().slots()) as usize;
        if told == 0 {
            self.queue[start..start + 16].copy_from_slice(&command.to_le_bytes());
        }
    }

    /// The slot of an index as it was, or cleared.
    pub fn leave(&mut self, index: u64) {
        let start = 16 * (index % self.control().slots()) as usize;
        let old = self.old[start..start + 16].to_vec();
        self.queue[start..start + 16].copy_from_slice(&old);
    }

    pub fn clear(&mut self, index: u64) {
        let start = 16 * (index % self.control().slots()) as usize;
        self.queue[start..start + 16].fill(0);
    }

    /// The commands at other indexes, by their numbers.
    pub fn put_all(&mut self, index: impl Fn(u64) -> u64) {
        if self.some() {
            self.queue.copy_from_slice(&self.old);
            (0..self.count()).for_each(|number| self.put(number, index(number)));
        }
    }

    /// Another control word, by the one that was due.
    pub fn ring(&mut self, made: impl Fn(Control) -> Control) {
        self.kept[0] = made(Control::fields(self.kept[0])).pack();
    }

    /// WR that much further on.
    pub fn ring_by(&mut self, count: u64) {
        let control = self.control();
        let wr = (control.wr + count) % control.ring();
        self.ring(|control| Control { wr, ..control });
    }

    /// Nothing done, and this number.
    pub fn refuse(&mut self, number: u64, word: u64) {
        self.kept.copy_from_slice(&self.before);
        self.queue.copy_from_slice(&self.old);
        self.number = number;
        self.answer = [word, 0, 0, 0, 0, 0, 0, 0];
    }

    /// Carried out, with so many of the commands.
    pub fn carry_out(&mut self, count: u64) {
        let wr = self.control().wr;
        (0..count).for_each(|number| self.put(number, wr + number));
        self.ring_by(count);
        self.number = 0;
        self.answer = [0; 8];
    }
}

/// A fault of a batch, with its name.
pub type Fault = (&'static str, fn(&mut Made));
