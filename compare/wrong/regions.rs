//! Wrong units that have another idea of the second table (document 02, T-11).

mod fills;
mod reads;
mod refusals;
mod scopes;
mod stores;

use super::asked::{retold, with, Asked};
use super::seen::one_by_one;
use crate::call::Call;
use crate::lent::{Lent, Memory};
use crate::model::command::{decode, Features};
use crate::model::region::{regions, Region};
use crate::unit;

#[derive(Clone, Copy)]
pub enum Fault {
    /// Commands are read so, or the features are for them.
    Reads(fn(Asked) -> Asked),
    /// A command raises with another reason.
    Told(fn(&Asked, u64) -> u64),
    /// 70 and 73 take rows that lie so, by their number too.
    Takes(fn(&Asked, usize, &Region) -> bool),
    /// The same of 73 alone.
    Some(fn(&Asked, usize, &Region) -> bool),
    /// A run stores to either table in another way.
    Stores(stores::Fault),
    /// 13 and 14 are given otherwise.
    Refusals(refusals::Fault),
    /// Fills of the table are others.
    Fills(fills::Fault),
}

/// Every wrong unit with its name.
pub fn all() -> Vec<(String, Fault)> {
    let mut all = scopes::all();
    all.extend(reads::all());
    all.extend(stores::all());
    all.extend(refusals::all());
    all.extend(fills::all());
    all
}

impl Asked {
    /// Whether it is 70 or 73.
    fn of_table(&self) -> bool {
        matches!(self.code(), 0x70 | 0x73)
    }

    /// Whether it is one of them, and legal.
    fn takes(&self) -> bool {
        let features = Features::from_bits(self.features);
        self.of_table() && decode(self.low, self.high, features).is_ok()
    }

    /// 70 in its place.
    fn all(&self) -> Asked {
        Asked {
            low: 0x70,
            high: 0,
            ..*self
        }
    }
}

impl Fault {
    /// Makes the call as `unit::perform` does, with the fault.
    pub fn perform(self, call: Call, memory: &mut Memory, answer: &mut Lent) -> u64 {
        match (self, call) {
            (Fault::Told(told), Call::Run { .. }) => retold(call, memory, answer, told),
            (Fault::Reads(_) | Fault::Takes(_) | Fault::Some(_), Call::Run { .. }) => {
                one_by_one(call, memory, answer, |call, slot, memory, answer| {
                    self.command(call, slot, memory, answer)
                })
            }
            (Fault::Stores(fault), Call::Run { .. }) => fault.perform(call, memory, answer),
            (Fault::Refusals(fault), _) => fault.perform(call, memory, answer),
            (Fault::Fills(fault), Call::TableFill { .. }) => fault.perform(call, memory, answer),
            _ => unit::perform(call, memory, answer),
        }
    }

    /// The run over the only command that waits.
    fn command(self, call: Call, slot: u64, memory: &mut Memory, answer: &mut Lent) -> u64 {
        let asked = Asked::at(call, slot);
        match self {
            Fault::Reads(read) => with(call, (read(asked), slot), |call| {
                unit::perform(call, memory, answer)
            }),
            Fault::Some(takes) if asked.code() == 0x73 => {
                Fault::Takes(takes).command(call, slot, memory, answer)
            }
            Fault::Takes(takes) if asked.takes() => {
                let spared = |&(row, region): &(usize, Region)| !takes(&asked, row, &region);
                let spared: Vec<usize> = regions(memory.table())
                    .enumerate()
                    .filter(spared)
                    .map(|(row, _)| row)
                    .collect();
                let mut copy = memory.copy();
                spared.iter().for_each(|row| copy.table_mut()[2 * row] = 0);
                let number = with(call, (asked.all(), slot), |call| {
                    unit::perform(call, &mut copy, answer)
                });
                for &row in &spared {
                    copy.table_mut()[2 * row] = memory.table()[2 * row];
                }
                memory.take(&copy);
                number
            }
            _ => unit::perform(call, memory, answer),
        }
    }
}
