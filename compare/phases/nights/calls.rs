//! The calls of a night, with inputs that mostly do something.

use super::super::single::{any_doorbell, any_enable, any_fill};
use super::Words;
use crate::call::Call;
use crate::generate::commands::{features, spoilt, usual};
use crate::generate::events::{any_ring, memory, record};
use crate::generate::images::{image, queue_for};
use crate::generate::random::Random;
use crate::generate::regions;
use crate::generate::transactions::aimed;
use crate::generate::world::World;
use crate::model::control::Control;
use crate::model::events::Index;

/// Those who call: the guest with its queue, and the device whose event is recorded.
pub struct Guest {
    world: World,
    features: u64,
    queue: Vec<u8>,
    record: [u8; 32],
}

#[derive(Clone, Copy, PartialEq)]
enum Kind {
    Run,
    Fill,
    Doorbell,
    Acknowledge,
    Enable,
    Translate,
    ClearPending,
    TableFill,
    EventWrite,
    EventRead,
    EventAcknowledge,
}

/// What has an allowance stands more often.
const USUAL: [Kind; 24] = [
    Kind::Run,
    Kind::Run,
    Kind::Run,
    Kind::Run,
    Kind::Run,
    Kind::Fill,
    Kind::Fill,
    Kind::Fill,
    Kind::Fill,
    Kind::Doorbell,
    Kind::Doorbell,
    Kind::Doorbell,
    Kind::Acknowledge,
    Kind::Enable,
    Kind::Translate,
    Kind::Translate,
    Kind::ClearPending,
    Kind::TableFill,
    Kind::TableFill,
    Kind::EventWrite,
    Kind::EventWrite,
    Kind::EventWrite,
    Kind::EventRead,
    Kind::EventAcknowledge,
];

/// One of these; where it would do little, mostly one that changes that.
fn any_kind(random: &mut Random, words: &Words) -> Kind {
    let kind = random.pick(&USUAL);
    if random.once_in(4) {
        return kind;
    }
    match kind {
        Kind::Run => towards_a_run(words),
        Kind::Fill if all_used(&words.kept[1..], 4) => towards_a_run(words),
        Kind::TableFill if all_used(&words.table, 2) => towards_a_run(words),
        Kind::EventWrite if Index::fields(words.events[0]).full() => Kind::EventRead,
        kind => kind,
    }
}

/// Whether no row of so many words is empty.
fn all_used(rows: &[u64], width: usize) -> bool {
    rows.iter().step_by(width).all(|&word| word != 0)
}

/// A run, or what it lacks to do something.
fn towards_a_run(words: &Words) -> Kind {
    let control = Control::fields(words.kept[0]);
    match control {
        _ if !control.enabled => Kind::Enable,
        _ if control.active() => Kind::Acknowledge,
        _ if control.rd == control.wr => Kind::Doorbell,
        _ => Kind::Run,
    }
}

impl Guest {
    pub fn new(random: &mut Random) -> Guest {
        Guest {
            world: World::new(random),
            features: features(random),
            queue: Vec::new(),
            record: [0; 32],
        }
    }

    /// Accepted words, with the queue that goes with them.
    pub fn words(&mut self, random: &mut Random) -> Words {
        let kept = image(random, &self.world);
        self.queue = queue_for(random, &self.world, &kept, self.features);
        let ring = any_ring(random);
        Words {
            kept,
            table: regions::table(random, &self.world),
            events: memory(random, ring),
        }
    }

    /// The next call, as these words suggest it. Its allowance is for others to give.
    pub fn call(&mut self, random: &mut Random, words: &Words) -> Call<'_> {
        match any_kind(random, words) {
            Kind::Run => self.run(random),
            Kind::Fill => any_fill(random, &self.world, &words.kept),
            Kind::Doorbell => self.ring(random, &words.kept),
            Kind::Acknowledge => self.mend(random, &words.kept),
            Kind::Enable => any_enable(random),
            Kind::Translate => aimed(random, &self.world, &words.kept),
            Kind::ClearPending => Call::ClearPending,
            Kind::TableFill => self.fill_table(random, &words.table),
            Kind::EventWrite => self.record(random),
            Kind::EventRead => Call::EventRead,
            Kind::EventAcknowledge => Call::EventAcknowledge,
        }
    }

    /// A run, once in a while of a queue that is one slot short.
    fn run(&mut self, random: &mut Random) -> Call<'_> {
        let first = if random.once_in(40) { 16 } else { 0 };
        Call::Run {
            queue: &self.queue[first..],
            features: self.features,
            allowance: 0,
        }
    }

    /// The guest writes a few commands where it will, and rings.
    fn ring(&mut self, random: &mut Random, kept: &[u64]) -> Call<'_> {
        for _ in 0..random.below(6) {
            let slot = random.below(self.queue.len() as u64 / 16);
            self.write(random, slot);
        }
        any_doorbell(random, kept)
    }

    /// The guest mostly mends the command at RD before the error is acknowledged.
    fn mend(&mut self, random: &mut Random, kept: &[u64]) -> Call<'_> {
        if !random.once_in(4) {
            self.write(random, Control::fields(kept[0]).slot());
        }
        Call::Acknowledge
    }

    fn write(&mut self, random: &mut Random, slot: u64) {
        let (low, high) = match random.once_in(10) {
            true => spoilt(random, &self.world),
            false => usual(random, &self.world, self.features),
        };
        let start = 16 * slot as usize;
        self.queue[start..start + 8].copy_from_slice(&low.to_le_bytes());
        self.queue[start + 8..start + 16].copy_from_slice(&high.to_le_bytes());
    }

    fn fill_table(&mut self, random: &mut Random, table: &[u64]) -> Call<'_> {
        let (row, words, allowance) = regions::any_fill(random, &self.world, table);
        Call::TableFill {
            row,
            words,
            allowance,
        }
    }

    fn record(&mut self, random: &mut Random) -> Call<'_> {
        self.record = record(random);
        Call::EventWrite {
            record: &self.record,
            allowance: 0,
        }
    }
}
