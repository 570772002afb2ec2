//! A command as a fault sees it, and runs over another one in its place.

use crate::call::{Call, RAISED};
use crate::lent::{Lent, Memory};
use crate::unit;

/// A command, and the features.
#[derive(Clone, Copy)]
pub struct Asked {
    pub low: u64,
    pub high: u64,
    pub features: u64,
}

impl Asked {
    /// The command of a run's slot.
    pub fn at(call: Call, slot: u64) -> Asked {
        let Call::Run {
            queue, features, ..
        } = call
        else {
            panic!("a command of no run");
        };
        let start = 16 * slot as usize;
        let word = |from: usize| u64::from_le_bytes(queue[from..from + 8].try_into().unwrap());
        Asked {
            low: word(start),
            high: word(start + 8),
            features,
        }
    }

    pub fn code(&self) -> u8 {
        self.low as u8
    }

    /// Whether it is one of 20 to 23.
    pub fn own(&self) -> bool {
        (0x20..=0x23).contains(&self.code())
    }

    pub fn has(&self, bits: u64) -> bool {
        self.features & bits == bits
    }

    /// A run's queue with the command in the slot.
    pub fn written(&self, call: Call, slot: u64) -> Vec<u8> {
        let Call::Run { queue, .. } = call else {
            panic!("a command of no run");
        };
        let mut queue = queue.to_vec();
        let start = 16 * slot as usize;
        queue[start..start + 8].copy_from_slice(&self.low.to_le_bytes());
        queue[start + 8..start + 16].copy_from_slice(&self.high.to_le_bytes());
        queue
    }
}

/// The run with this command in the slot, and its features.
pub fn with(call: Call, (asked, slot): (Asked, u64), perform: impl FnOnce(Call) -> u64) -> u64 {
    let queue = asked.written(call, slot);
    let (queue, features) = (&queue[..], asked.features);
    let allowance = call.numbers()[1];
    perform(Call::Run {
        queue,
        features,
        allowance,
    })
}

/// The run, with another reason if it raised.
pub fn retold(
    call: Call,
    memory: &mut Memory,
    answer: &mut Lent,
    told: fn(&Asked, u64) -> u64,
) -> u64 {
    let number = unit::perform(call, memory, answer);
    let slot = answer.inner()[6];
    if number == 0 && answer.inner()[0] == RAISED {
        let asked = Asked::at(call, slot);
        let told = told(&asked, answer.inner()[5]);
        answer.inner_mut()[5] = told;
    }
    number
}
