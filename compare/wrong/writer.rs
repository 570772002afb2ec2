//! Wrong units that write commands and batches otherwise (document 02, T-10).

mod bytes;
mod fields;
mod made;
mod orders;
mod parts;
mod places;
mod refused;
mod room;
mod rung;
mod slots;
mod told;

use crate::call::{Call, NAMES};
use crate::generate::fields::with;
use crate::generate::random::Random;
use crate::lent::{Lent, Memory};
use crate::model::control::Control;
use crate::model::fields::{Fields, CODE};
use crate::unit;
use made::Made;

#[derive(Clone, Copy)]
pub enum Fault {
    /// A command is written otherwise, by one of the calls.
    Command(usize, Single),
    /// What is made of a slot, once the unit has answered.
    Slot(fn(&Named, &[u8], &mut Slot)),
    /// The same of a batch.
    Batch(fn(&mut Made)),
    /// A batch is taken for one of other words, or its features for others.
    Words(fn(&[u64], u64) -> (Vec<u64>, u64)),
}

/// One command, whoever writes it.
#[derive(Clone, Copy)]
pub enum Single {
    /// The bytes are others, by what stood there and what the unit wrote.
    Bytes(fn(&Named, u128, u128) -> u128),
    /// Its fields, or the features for it, are taken for others.
    Takes(fn(Named) -> Named),
    /// It is refused, or with another number.
    Told(fn(&Named, u64) -> u64),
    /// What the unit refuses with 21 is written so.
    Writes(fn(&Named) -> Option<u128>),
    /// One of the fields that is too wide is cut off, and one that isn't the code's is
    /// not looked at.
    Cut(usize),
    Unseen(usize),
}

/// A command that is to be written.
#[derive(Clone, Copy)]
pub struct Named {
    pub fields: Fields,
    pub features: u64,
}

/// What a call on a slot comes to.
pub struct Slot {
    pub number: u64,
    pub answer: [u64; 8],
    pub bytes: Vec<u8>,
}

const WRITE_BATCH: usize = 9;
const WRITE_COMMAND: usize = 14;

/// Every wrong unit with its name.
pub fn all() -> Vec<(String, Fault)> {
    let mut all = Vec::new();
    for call in [WRITE_COMMAND, WRITE_BATCH] {
        let singles = bytes::all().chain(fields::all()).chain(told::all());
        for (name, single) in singles {
            let what = format!("{}: {name}", NAMES[call]);
            all.push((what, Fault::Command(call, single)));
        }
    }
    let slots = slots::ALL
        .iter()
        .map(|&(name, made)| (name, Fault::Slot(made)));
    let made = places::all().chain(rung::all()).chain(orders::all());
    let made = made.chain(room::ROOM).chain(refused::STORES);
    let made = made.map(|(name, made)| (name, Fault::Batch(made)));
    let words = room::WORDS.map(|(name, seen)| (name, Fault::Words(seen)));
    let others = slots.chain(made).chain(words);
    all.extend(others.map(|(name, fault)| (format!("writer: {name}"), fault)));
    all
}

impl Named {
    pub fn code(&self) -> u64 {
        self.fields[CODE]
    }

    /// Whether it is of one of the codes.
    pub fn of(&self, codes: &[u64]) -> bool {
        codes.contains(&self.code())
    }

    pub fn has(&self, features: u64) -> bool {
        self.features & features == features
    }

    /// What the unit makes of it in a slot that holds `old`.
    pub fn on_unit(&self, old: u128) -> (u64, u128) {
        let garbage = &mut Random::new(0);
        let mut memory = Memory::new(&[], &[], garbage).and(&old.to_le_bytes(), garbage);
        let call = Call::WriteCommand {
            fields: &self.fields,
            features: self.features,
        };
        let number = unit::perform(call, &mut memory, &mut Lent::new(&[0; 8], garbage));
        let bytes = memory.bytes().try_into().expect("sixteen bytes");
        (number, u128::from_le_bytes(bytes))
    }
}

impl Single {
    /// The command into a slot of 16 bytes that holds `old`: the number, and what it
    /// holds then.
    fn write(self, named: Named, old: u128) -> (u64, u128) {
        let taken = match self {
            Single::Takes(taken) => taken(named),
            Single::Cut(field) => fields::cut(named, field),
            Single::Unseen(field) => fields::unseen(named, field),
            _ => named,
        };
        let (number, new) = taken.on_unit(old);
        match self {
            Single::Bytes(made) if number == 0 => (0, made(&named, old, new)),
            Single::Told(told) => match told(&named, number) {
                0 => (number, new),
                told => (told, old),
            },
            Single::Writes(made) if number == 21 => {
                made(&named).map_or((21, old), |command| (0, command))
            }
            _ => (number, new),
        }
    }
}

impl Fault {
    /// Makes the call as `unit::perform` does, with the fault.
    pub fn perform(self, call: Call, memory: &mut Memory, answer: &mut Lent) -> u64 {
        match (self, call) {
            (Fault::Command(WRITE_COMMAND, single), Call::WriteCommand { fields, features })
                if memory.bytes().len() == 16 =>
            {
                let old = memory.bytes().try_into().expect("sixteen bytes");
                let fields = *fields;
                let named = Named { fields, features };
                let (number, new) = single.write(named, u128::from_le_bytes(old));
                memory.bytes_mut().copy_from_slice(&new.to_le_bytes());
                answer.inner_mut().fill(0);
                number
            }
            (Fault::Command(WRITE_BATCH, single), Call::WriteBatch { commands, features }) => {
                one_by_one(single, (commands, features), memory, answer)
            }
            (Fault::Slot(made), Call::WriteCommand { fields, features }) => {
                let before = memory.bytes().to_vec();
                let mut slot = Slot {
                    number: unit::perform(call, memory, answer),
                    answer: std::array::from_fn(|word| answer.inner()[word]),
                    bytes: memory.bytes().to_vec(),
                };
                let fields = *fields;
                made(&Named { fields, features }, &before, &mut slot);
                memory.bytes_mut().copy_from_slice(&slot.bytes);
                answer.inner_mut().copy_from_slice(&slot.answer);
                slot.number
            }
            (Fault::Batch(made), Call::WriteBatch { commands, features }) => {
                Made::of((commands, features), memory, answer).spoil(made, memory, answer)
            }
            (Fault::Words(seen), Call::WriteBatch { commands, features }) => {
                let (commands, features) = seen(commands, features);
                let commands = &commands;
                unit::perform(Call::WriteBatch { commands, features }, memory, answer)
            }
            _ => unit::perform(call, memory, answer),
        }
    }
}

/// A batch whose commands are written by a wrong writer: in their places stand some that
/// get the same refusals, and then what it wrote.
fn one_by_one(
    single: Single,
    (commands, features): (&[u64], u64),
    memory: &mut Memory,
    answer: &mut Lent,
) -> u64 {
    let control = Control::fields(memory.inner().first().copied().unwrap_or(0));
    let (whole, rest) = commands.split_at(commands.len() / 16 * 16);
    let mut instead = Vec::new();
    let mut written = Vec::new();
    for (index, words) in (control.wr..).zip(whole.chunks_exact(16)) {
        let start = 16 * (index % control.slots()) as usize;
        let old = memory.bytes().get(start..start + 16);
        let old = old.map_or(0, |slot| u128::from_le_bytes(slot.try_into().unwrap()));
        let fields = words.try_into().expect("sixteen words");
        let (number, new) = single.write(Named { fields, features }, old);
        // Without a feature 30 is legal and 70 is not.
        instead.extend(match number {
            0 => with(0x30, &[]),
            20 => with(0x70, &[]),
            _ => [0; 16],
        });
        written.push((start, new));
    }
    instead.extend_from_slice(rest);
    let call = Call::WriteBatch {
        commands: &instead,
        features: 0,
    };
    let number = unit::perform(call, memory, answer);
    if number == 0 {
        for (start, new) in written {
            memory.bytes_mut()[start..start + 16].copy_from_slice(&new.to_le_bytes());
        }
    }
    number
}
