//! A full second table: what a run pays for it, and commands about it.

use super::{bytes, Case, Command, Lent, Work, DPT, GUEST_FEATURES};
use crate::limits::REGIONS;
use crate::random::Random;

/// The sizes by their code, as powers of two.
const SIZES: [u64; 10] = [12, 14, 16, 21, 25, 29, 30, 34, 36, 39];

/// Regions of every size anywhere, two thirds of them last-level.
fn table() -> Vec<u64> {
    let mut random = Random::new(9);
    let mut row = |code: u64| {
        let size = SIZES[code as usize];
        let last = u64::from(!random.once_in(3)) << 1;
        [1 | last | code << 2, random.next() >> 12 >> size << size]
    };
    (0..REGIONS).flat_map(|place| row(place % 10)).collect()
}

/// The case with a full table in the place of its own.
pub fn full(letter: &'static str, what: &'static str, case: Case) -> Case {
    let lent = Lent {
        table: table(),
        ..case.lent
    };
    Case {
        letter,
        what,
        lent,
        ..case
    }
}

/// Commands 73 of 4KB each, over the rows of a case whose own commands they replace.
pub fn about(letter: &'static str, what: &'static str, case: Case) -> Case {
    let size = case.size;
    let mut random = Random::new(11);
    let command = |_| -> Command { (0x73, random.next() >> 20 << 12 | random.below(2)) };
    let commands: Vec<Command> = (0..size.commands()).map(command).collect();
    let work = Work::Runs {
        queues: vec![bytes(size, &commands)],
        features: GUEST_FEATURES | DPT,
    };
    Case {
        work,
        ..full(letter, what, case)
    }
}
