//! Writes, reads and acknowledges in a row, beside a plain queue of the records
//! that were stored.

use super::write;
use crate::call::{Call, Reply, DROPPED, STORED, WRITE_CUT};
use crate::checker::Checker;
use crate::generate::events::{memory, record, ring};
use crate::generate::random::Random;
use crate::limits::EVENTS;
use std::collections::VecDeque;

/// How many rings of each size, from empty ones.
const RINGS: u64 = 20;

pub fn sequences(checker: &mut Checker) {
    let mut random = checker.phase("events: sequences beside a plain queue");
    for n in 0..=EVENTS {
        for _ in 0..RINGS {
            sequence(checker, &mut random, n);
        }
    }
}

/// Long enough to go round the ring more than once. Now more is written, and now
/// more is read.
fn sequence(checker: &mut Checker, random: &mut Random, n: u64) {
    let mut recorder = Recorder::new(random, n);
    for turn in 0..6 {
        let steps = 10 + (1 << n) * 3 / 4;
        for _ in 0..steps {
            let writes = if turn % 2 == 0 { 8 } else { 3 };
            match random.below(12) {
                0 => recorder.acknowledge(checker),
                draw if draw <= writes => recorder.write(checker, random),
                _ => recorder.read(checker),
            }
        }
    }
}

/// The unit's words, and what ought to be in them: the records stored and not yet
/// read, whether an overflow is outstanding, and which slots were read out.
struct Recorder {
    n: u64,
    events: Vec<u64>,
    stored: VecDeque<[u8; 32]>,
    outstanding: bool,
    oldest: usize,
    read_out: Vec<bool>,
}

const LAW: &str = "the recorder isn't a plain queue of what was stored";

impl Recorder {
    fn new(random: &mut Random, n: u64) -> Recorder {
        let slots = 1 << n;
        let index = ring(n, random.below(2 * slots), 0, random.pick(&[0, 3]));
        Recorder {
            n,
            events: memory(random, index),
            stored: VecDeque::new(),
            outstanding: false,
            oldest: (index.rd % slots) as usize,
            read_out: vec![false; slots as usize],
        }
    }

    /// Makes a call, and insists on what is returned and told, and on an overflow
    /// that is outstanding from the first drop to the acknowledge.
    fn call(&mut self, checker: &mut Checker, call: Call, number: u64, told: &[u64]) {
        let before = self.events.clone();
        let reply: Reply = checker.call(&mut self.events, call);
        let flags = self.events[0] >> 40 & 3;
        let standing = (flags == 1 || flags == 2) == self.outstanding;
        let met = reply.number == number && reply.answer.starts_with(told) && standing;
        checker.insist(met, LAW, &before, call, (reply, &self.events));
    }

    fn write(&mut self, checker: &mut Checker, random: &mut Random) {
        let record = record(random);
        let allowance = random.pick(&[0, 1, 2, 3, 4, 5, 5, 5, 5, 5, 6, u64::MAX]);
        let slots = self.read_out.len();
        let full = self.stored.len() == slots;
        let told = match (full, self.outstanding, allowance) {
            (true, true, _) => [DROPPED, 0],
            (true, false, 1..) => [DROPPED, 1],
            (false, _, 5..) => [STORED, 5],
            (_, _, cut) => [WRITE_CUT, cut],
        };
        self.outstanding |= told[0] == DROPPED;
        self.call(checker, write(&record, allowance), 0, &told);
        if told[0] == STORED {
            let slot = (self.oldest + self.stored.len()) % slots;
            if self.read_out[slot] {
                checker.tally.events.count_reused(self.n);
            }
            self.stored.push_back(record);
        }
    }

    fn read(&mut self, checker: &mut Checker) {
        let Some(record) = self.stored.pop_front() else {
            return self.call(checker, Call::EventRead, 17, &[0; 8]);
        };
        let words = record.chunks(8).map(|bytes| bytes.try_into());
        let words = words.map(|bytes| u64::from_le_bytes(bytes.expect("eight bytes")));
        let told: Vec<u64> = words.chain([0; 4]).collect();
        self.call(checker, Call::EventRead, 0, &told);
        self.read_out[self.oldest] = true;
        self.oldest = (self.oldest + 1) % self.read_out.len();
    }

    fn acknowledge(&mut self, checker: &mut Checker) {
        let number = if self.outstanding { 0 } else { 18 };
        self.outstanding = false;
        self.call(checker, Call::EventAcknowledge, number, &[0; 8]);
    }
}
