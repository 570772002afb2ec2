//! Wrong units that have another idea of ranges (document 02, T-07).

mod legal;
mod places;

use super::asked::{retold, with, Asked};
use super::seen::{one_by_one, seen};
use crate::call::Call;
use crate::lent::{Lent, Memory};
use crate::model::command::{decode, ranged, Features};
use crate::model::range::Fields;
use crate::model::row::{Kind, Row};
use crate::unit;

#[derive(Clone, Copy)]
pub enum Fault {
    /// Commands are read so, or the features are for them.
    Reads(fn(Asked) -> Asked),
    /// The same for commands of one code.
    Of(u64, fn(Asked) -> Asked),
    /// A command raises with another reason.
    Told(fn(&Asked, u64) -> u64),
    /// Commands with a range see rows so.
    Scans(fn(Row, &Asked) -> Row),
    /// Commands with a range, of the codes, take rows that lie so.
    Lies(&'static [u64], fn(&Asked, &Row) -> bool),
}

/// Every wrong unit with its name.
pub fn all() -> Vec<(String, Fault)> {
    let mut all = places::all();
    all.extend(legal::all());
    all
}

const S1P: u64 = 1;
const S2P: u64 = 1 << 1;
const ASID16: u64 = 1 << 2;
const VMID16: u64 = 1 << 3;

/// The places of the range's fields in the low and in the high word.
const LOW: u64 = 0x01F1_F000;
const HIGH: u64 = 0xF80;

impl Asked {
    /// The fields of a range, if it is one of the codes that may have them.
    fn fields(&self) -> Option<Fields> {
        ranged(self.low & 0xFF, self.low, self.high)
    }

    /// Whether it has a range, and is legal.
    fn reaches(&self) -> bool {
        let features = Features::from_bits(self.features);
        let granule = self.fields().is_some_and(|fields| fields.tg != 0);
        granule && decode(self.low, self.high, features).is_ok()
    }

    /// The same without a range, at address 0.
    fn at_zero(&self) -> Asked {
        Asked {
            low: self.low & !LOW,
            high: self.high & 1,
            ..*self
        }
    }
}

impl Fault {
    /// Makes the call as `unit::perform` does, with the fault.
    pub fn perform(self, call: Call, memory: &mut Memory, answer: &mut Lent) -> u64 {
        match (self, call) {
            (Fault::Told(told), Call::Run { .. }) => retold(call, memory, answer, told),
            (_, Call::Run { .. }) => {
                one_by_one(call, memory, answer, |call, slot, memory, answer| {
                    self.command(call, slot, memory, answer)
                })
            }
            _ => unit::perform(call, memory, answer),
        }
    }

    /// The run over the only command that waits.
    fn command(self, call: Call, slot: u64, memory: &mut Memory, answer: &mut Lent) -> u64 {
        let asked = Asked::at(call, slot);
        match self {
            Fault::Reads(read) => with(call, (read(asked), slot), |call| {
                unit::perform(call, memory, answer)
            }),
            Fault::Of(code, read) if code == asked.low & 0xFF => {
                Fault::Reads(read).command(call, slot, memory, answer)
            }
            Fault::Scans(row) if asked.reaches() => {
                seen(call, memory, answer, |seen| row(seen, &asked))
            }
            Fault::Lies(codes, lies) if asked.reaches() && codes.contains(&(asked.low & 0xFF)) => {
                with(call, (asked.at_zero(), slot), |call| {
                    seen(call, memory, answer, |row| placed(row, lies(&asked, &row)))
                })
            }
            _ => unit::perform(call, memory, answer),
        }
    }
}

/// A stage row at address 0, if it is to be found there, else an empty one.
fn placed(row: Row, found: bool) -> Row {
    let Row([word, one, _, output]) = row;
    match (row.kind(), found) {
        (Kind::Ste | Kind::Cd, _) => row,
        (_, true) => Row([word & !(0x3F << 5) | 12 << 5, one, 0, output]),
        (_, false) => Row([0, one, 0, output]),
    }
}
