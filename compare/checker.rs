//! Makes each call on both sides and stops the program at the first difference.

use crate::call::{Call, Reply};
use crate::generate::random::Random;
use crate::laws;
use crate::lent::{Bytes, Lent, Memory};
use crate::modelled;
use crate::report::{stop, Scene};
use crate::tally::Tally;
use crate::unit;
use crate::watchdog;
use crate::wrong::Wrong;

pub struct Checker {
    seed: u64,
    phase: &'static str,
    garbage: Random,
    /// The second table and the bytes that were lent last, as they were before.
    table: Vec<u64>,
    bytes: Vec<u8>,
    /// A wrong unit in the unit's place.
    wrong: Option<Wrong>,
    pub tally: Tally,
}

impl Checker {
    pub fn new(seed: u64, wrong: Option<Wrong>) -> Checker {
        Checker {
            seed,
            phase: "",
            garbage: Random::new(!seed),
            table: Vec::new(),
            bytes: Vec::new(),
            wrong,
            tally: Tally::default(),
        }
    }

    /// Starts a phase. Its numbers hang on seed and name alone, so that a change
    /// to one phase leaves the others as they were.
    pub fn phase(&mut self, name: &'static str) -> Random {
        println!("{name} ...");
        self.phase = name;
        let mark = name
            .bytes()
            .fold(0u64, |sum, byte| sum.rotate_left(7) ^ u64::from(byte));
        Random::new(self.seed ^ mark)
    }

    /// One call on unit and model, each with its own copy; `kept` then holds
    /// what both left there. The second table is one empty row.
    pub fn call(&mut self, kept: &mut [u64], call: Call) -> Reply {
        let mut table = [0, self.garbage.next()];
        self.both(kept, &mut table, call)
    }

    /// The same with a second table, which then holds what both left there, too.
    pub fn both(&mut self, kept: &mut [u64], table: &mut [u64], call: Call) -> Reply {
        self.bytes.clear();
        let lent = Memory::new(kept, table, &mut self.garbage);
        self.lending(lent, (kept, table, &mut []), call)
    }

    /// The same with a slot or a queue that is written.
    pub fn write(&mut self, kept: &mut [u64], bytes: &mut [u8], call: Call) -> Reply {
        let mut table = [0, self.garbage.next()];
        self.bytes = bytes.to_vec();
        let lent = Memory::new(kept, &table, &mut self.garbage).and(bytes, &mut self.garbage);
        self.lending(lent, (kept, &mut table, bytes), call)
    }

    fn lending(
        &mut self,
        mut lent: Memory,
        (kept, table, bytes): (&mut [u64], &mut [u64], &mut [u8]),
        call: Call,
    ) -> Reply {
        let before = kept.to_vec();
        self.table = table.to_vec();
        let (theirs, inside) = self.on_unit(&mut lent, call);
        let ours = modelled::perform(call, (kept, table, bytes), &mut self.tally);
        self.tally.upper.count(&before, &call, &ours, kept);
        self.tally.doubles.count(&before, &call, &ours);
        self.tally.hyp.count(&before, &call, &ours, kept);
        self.tally.ranges.count(&before, &call, &ours, kept);
        let start = (&before[..], &self.table[..]);
        self.tally.regions.count(start, &call, &ours, (kept, table));
        self.tally.writer.count(&before, &call, &ours, bytes.len());
        self.tally.check.count(start, &call, &ours);

        let mut scene = self.scene(&before, call, (theirs, lent.inner()), (ours, kept));
        scene.tables = [lent.table(), table];
        scene.written = [lent.bytes(), bytes];
        let words = lent.inner() == kept && lent.table() == table;
        if theirs != ours || !words || lent.bytes() != bytes {
            stop(&scene, "unit and model differ");
        }
        if !inside {
            stop(&scene, OUTSIDE);
        }
        let tables = (&self.table[..], &*table);
        let written = (&self.bytes[..], &*bytes);
        let law = laws::broken(&before, call, ours, kept, tables)
            .or_else(|| laws::writer::broken(&before, call, ours, kept, written));
        if let Some(law) = law {
            stop(&scene, law);
        }
        ours
    }

    /// One call on the unit alone, for what it has to do by its own earlier calls.
    pub fn alone(&mut self, kept: &mut [u64], table: &mut [u64], call: Call) -> Reply {
        self.bytes.clear();
        self.table = table.to_vec();
        let mut lent = Memory::new(kept, table, &mut self.garbage);
        let (reply, inside) = self.on_unit(&mut lent, call);
        self.insist(inside, OUTSIDE, kept, call, (reply, lent.inner()));
        kept.copy_from_slice(lent.inner());
        table.copy_from_slice(lent.table());
        reply
    }

    /// The unit's reply, and whether it stored to nothing but what is lent for storing.
    fn on_unit(&mut self, lent: &mut Memory, call: Call) -> (Reply, bool) {
        let dirt: [u64; 8] = std::array::from_fn(|_| self.garbage.next());
        let mut answer = Lent::new(&dirt, &mut self.garbage);
        let garbage = &mut self.garbage;
        let (number, read_kept) = on_unit(call, (lent, &mut answer), &self.wrong, garbage);
        watchdog::returned();
        let reply = Reply {
            number,
            answer: std::array::from_fn(|place| answer.inner()[place]),
        };
        let inside = read_kept && lent.margins_kept() && answer.margins_kept();
        (reply, inside)
    }

    /// Stops the program unless a law over several calls holds; `call` is one of
    /// them, and `side` what both sides made of it.
    pub fn insist(
        &self,
        holds: bool,
        law: &str,
        before: &[u64],
        call: Call,
        side: (Reply, &[u64]),
    ) {
        if !holds {
            stop(&self.scene(before, call, side, side), law);
        }
    }

    fn scene<'a>(
        &'a self,
        before: &'a [u64],
        call: Call<'a>,
        unit: (Reply, &'a [u64]),
        model: (Reply, &'a [u64]),
    ) -> Scene<'a> {
        let (seed, phase, serial) = (self.seed, self.phase, self.tally.compared);
        Scene {
            seed,
            phase,
            serial,
            before,
            table: &self.table,
            call,
            unit,
            model,
            tables: [&[]; 2],
            bytes: &self.bytes,
            written: [&[]; 2],
        }
    }
}

const OUTSIDE: &str = "the unit stored outside the words lent for storing";

/// The unit's number, and whether it left alone what it only reads: a run's queue, the
/// record, the words of commands, batches. It is lent a copy of them, for the model has to
/// read them as they were.
fn on_unit(
    call: Call,
    (kept, answer): (&mut Memory, &mut Lent),
    wrong: &Option<Wrong>,
    garbage: &mut Random,
) -> (u64, bool) {
    let perform = |call, kept: &mut Memory, answer: &mut Lent| match wrong {
        None => unit::perform(call, kept, answer),
        Some(wrong) => wrong.perform(call, kept, answer),
    };
    match call {
        Call::Run {
            queue,
            features,
            allowance,
        } => {
            let copy = queue.to_vec();
            let number = perform(
                Call::Run {
                    queue: &copy,
                    features,
                    allowance,
                },
                kept,
                answer,
            );
            (number, copy == queue)
        }
        Call::EventWrite { record, allowance } => {
            let copy = *record;
            let lent = Call::EventWrite {
                record: &copy,
                allowance,
            };
            (perform(lent, kept, answer), copy == *record)
        }
        Call::WriteCommand { fields, features } => {
            let copy = *fields;
            let lent = Call::WriteCommand {
                fields: &copy,
                features,
            };
            (perform(lent, kept, answer), copy == *fields)
        }
        Call::WriteBatch { commands, features } => {
            let copy = commands.to_vec();
            let lent = Call::WriteBatch {
                commands: &copy,
                features,
            };
            (perform(lent, kept, answer), copy == commands)
        }
        Call::CheckBatch {
            original,
            proposed,
            features,
        } => {
            let one = Bytes::new(original, garbage);
            let other = Bytes::new(proposed, garbage);
            // A batch beside itself is lent once.
            let second = match std::ptr::eq(original, proposed) {
                true => &one,
                false => &other,
            };
            let lent = Call::CheckBatch {
                original: one.inner(),
                proposed: second.inner(),
                features,
            };
            let number = perform(lent, kept, answer);
            let same = one.inner() == original && other.inner() == proposed;
            (number, same && one.margins_kept() && other.margins_kept())
        }
        _ => (perform(call, kept, answer), true),
    }
}
