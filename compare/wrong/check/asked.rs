//! A check as a wrong unit sees it.

use crate::call::Call;
use crate::generate::commands::Command;
use crate::generate::random::Random;
use crate::lent::{Lent, Memory};
use crate::model::command::{decode, Effect, Features};
use crate::model::image;
use crate::model::reason;
use crate::model::region;
use crate::model::row::Row;
use crate::unit;

/// A command that is illegal under any features.
pub const BAD: Command = (0xFF, 0);

#[derive(Clone)]
pub struct Asked {
    pub kept: Vec<u64>,
    pub table: Vec<u64>,
    pub batches: [Vec<u8>; 2],
    pub features: u64,
}

impl Asked {
    /// None of a call that is no check.
    pub fn of(call: Call, memory: &Memory) -> Option<Asked> {
        match call {
            Call::CheckBatch {
                original,
                proposed,
                features,
            } => Some(Asked {
                kept: memory.inner().to_vec(),
                table: memory.table().to_vec(),
                batches: [original.to_vec(), proposed.to_vec()],
                features,
            }),
            _ => None,
        }
    }

    /// What the unit says.
    pub fn on_unit(&self) -> (u64, [u64; 8]) {
        let garbage = &mut Random::new(0);
        let mut memory = Memory::new(&self.kept, &self.table, garbage);
        let mut answer = Lent::new(&[0; 8], garbage);
        let call = Call::CheckBatch {
            original: &self.batches[0],
            proposed: &self.batches[1],
            features: self.features,
        };
        let number = unit::perform(call, &mut memory, &mut answer);
        (number, std::array::from_fn(|word| answer.inner()[word]))
    }

    /// The whole commands of a batch.
    pub fn commands(&self, batch: usize) -> Vec<Command> {
        let word = |bytes: &[u8]| u64::from_le_bytes(bytes.try_into().expect("eight bytes"));
        let slots = self.batches[batch].chunks_exact(16);
        slots
            .map(|slot| (word(&slot[..8]), word(&slot[8..])))
            .collect()
    }

    /// Those commands and what is over.
    pub fn put(&mut self, batch: usize, commands: &[Command]) {
        let whole = self.batches[batch].len() / 16 * 16;
        let over = self.batches[batch].split_off(whole);
        let words = commands.iter().flat_map(|&(low, high)| [low, high]);
        let bytes = words.flat_map(u64::to_le_bytes);
        self.batches[batch] = bytes.chain(over).collect();
    }

    /// Each command of the batches for another one, by its number.
    pub fn change(&mut self, batches: &[usize], other: impl Fn(usize, Command) -> Command) {
        for &batch in batches {
            let commands = self.commands(batch).into_iter().enumerate();
            let changed: Vec<Command> = commands.map(|(place, own)| other(place, own)).collect();
            self.put(batch, &changed);
        }
    }

    /// Each row of the kept memory that is in use for another one.
    pub fn see(&mut self, other: impl Fn(Row) -> Row) {
        let rows: Vec<Row> = image::rows(&self.kept).collect();
        for (number, row) in rows.into_iter().enumerate().filter(|(_, row)| row.used()) {
            self.kept[image::place(number)..][..4].copy_from_slice(&other(row).0);
        }
    }

    /// A command that is legal under any features, and after no row: 03 for a stream that
    /// no row has.
    pub fn idle(&self) -> Command {
        let rows: Vec<Row> = image::rows(&self.kept).collect();
        let met = |stream: u64| rows.iter().any(|row| row.stream() >> 10 == stream >> 10);
        let streams = (0u64..).map(|number| number * 0x9E37_7800 & 0xFFFF_FC00);
        let free = streams.take(1 << 12).find(|&stream| !met(stream));
        (0x03 | free.unwrap_or(0) << 32, 0)
    }

    /// What a command does, or why it is illegal.
    pub fn legal(&self) -> impl Fn(Command) -> Result<Effect, reason::Reason> {
        let features = Features::from_bits(self.features);
        move |(low, high)| decode(low, high, features)
    }

    /// The rows of the kept memory.
    pub fn rows(&self) -> usize {
        self.kept.len() / 4
    }

    /// Whether a command is after each row, of both tables.
    pub fn scope(&self, effect: Effect) -> Vec<bool> {
        let rows = image::rows(&self.kept).map(|row| match effect {
            Effect::Remove(scope) => scope.takes(&row),
            _ => false,
        });
        let regions = region::regions(&self.table).map(|row| match effect {
            Effect::RemoveRegions(scope) => scope.takes(&row),
            _ => false,
        });
        rows.chain(regions).collect()
    }

    /// The rows of both tables that go.
    pub fn gone(&self, batch: usize) -> Vec<bool> {
        let legal = self.legal();
        let mut gone = vec![false; self.rows() + self.table.len() / 2];
        for effect in self
            .commands(batch)
            .into_iter()
            .filter_map(|own| legal(own).ok())
        {
            for (gone, takes) in gone.iter_mut().zip(self.scope(effect)) {
                *gone |= takes;
            }
        }
        gone
    }

    /// Whether rows differ, for each of them.
    pub fn differ(&self) -> Vec<bool> {
        let (one, other) = (self.gone(0), self.gone(1));
        one.iter()
            .zip(&other)
            .map(|(one, other)| one != other)
            .collect()
    }

    /// The commands of a batch that don't qualify.
    pub fn unfit(&self, batch: usize) -> Vec<u64> {
        let legal = self.legal();
        let unfit = |&(_, &(low, high)): &(usize, &Command)| {
            matches!(low as u8, 0x01 | 0x02 | 0x46) || legal((low, high)).is_err()
        };
        let commands = self.commands(batch);
        let numbers = commands.iter().enumerate().filter(unfit);
        numbers.map(|(number, _)| number as u64).collect()
    }
}
