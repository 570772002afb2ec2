//! Single calls on accepted and on damaged memories.

use crate::call::Call;
use crate::checker::Checker;
use crate::generate::commands::{allowance, features};
use crate::generate::damage::{damage, elsewhere, misfit};
use crate::generate::doubles::{fresh, near};
use crate::generate::images::{image, leftover, queue_for};
use crate::generate::random::Random;
use crate::generate::regions;
use crate::generate::rows::{any_row, EL2, EL2_E2H};
use crate::generate::transactions::aimed;
use crate::generate::world::World;
use crate::limits::ROWS;
use crate::model::control::Control;

/// Runs and transactions have more to them than the other calls.
const USUAL: [usize; 13] = [0, 0, 0, 0, 1, 2, 3, 4, 5, 5, 5, 6, 7];

pub fn accepted(checker: &mut Checker) {
    let mut random = checker.phase("single calls on accepted memories");
    for _ in 0..150_000 {
        let world = World::new(&mut random);
        let mut kept = image(&mut random, &world);
        let index = random.pick(&USUAL);
        any_call(checker, &mut random, &world, &mut kept, index);
    }
}

pub fn damaged(checker: &mut Checker) {
    let mut random = checker.phase("single calls on damaged memories");
    for _ in 0..80_000 {
        let world = World::new(&mut random);
        let mut kept = image(&mut random, &world);
        damage(&mut random, &mut kept);
        let index = random.below(8) as usize;
        any_call(checker, &mut random, &world, &mut kept, index);
    }
}

/// A call of the given index with arguments that fit the memory, or nearly: one of
/// document 01's seven, or a fill of the second table. The one of T-08 has phases of
/// its own.
pub fn any_call(
    checker: &mut Checker,
    random: &mut Random,
    world: &World,
    kept: &mut [u64],
    index: usize,
) {
    let call = match index {
        0 => return any_run(checker, random, world, kept),
        1 => any_fill(random, world, kept),
        2 => any_doorbell(random, kept),
        3 => Call::Acknowledge,
        4 => any_enable(random),
        5 => aimed(random, world, kept),
        6 => Call::State,
        _ => return any_table_fill(checker, random, world, kept),
    };
    checker.call(kept, call);
}

/// A run; one in sixteen has a queue of the wrong length.
fn any_run(checker: &mut Checker, random: &mut Random, world: &World, kept: &mut [u64]) {
    let features = features(random);
    let mut queue = queue_for(random, world, kept, features);
    if random.once_in(16) {
        misfit(random, &mut queue);
    }
    let call = Call::Run {
        queue: &queue,
        features,
        allowance: allowance(random),
    };
    checker.both(kept, &mut any_table(random, world), call);
}

/// A second table; one in sixteen is damaged.
fn any_table(random: &mut Random, world: &World) -> Vec<u64> {
    let mut table = regions::table(random, world);
    if random.once_in(16) {
        regions::damage(random, &mut table);
    }
    table
}

fn any_table_fill(checker: &mut Checker, random: &mut Random, world: &World, kept: &mut [u64]) {
    let mut table = any_table(random, world);
    let (row, words, allowance) = regions::any_fill(random, world, &table);
    let call = Call::TableFill {
        row,
        words,
        allowance,
    };
    checker.both(kept, &mut table, call);
}

pub fn any_enable(random: &mut Random) -> Call<'static> {
    let any = random.next();
    Call::Enable {
        on: random.pick(&[0, 1, 1, 1 << 32, any]),
    }
}

/// A row number near the table, with words that are mostly well formed and double
/// no row.
pub fn any_fill(random: &mut Random, world: &World, kept: &[u64]) -> Call<'static> {
    let rows = kept.len() as u64 / 4;
    let empty: Vec<u64> = (0..rows)
        .filter(|row| kept.get(1 + 4 * *row as usize) == Some(&0))
        .collect();
    let row = match random.below(10) {
        0..=5 if !empty.is_empty() => random.pick(&empty),
        0..=8 => random.below(rows + 1),
        _ => random.pick(&[rows, rows + 1, ROWS, 1 << 32, 1 << 62, u64::MAX]),
    };
    let mut words = match random.below(8) {
        0 | 1 => near(random, world, kept),
        2 => any_row(random, world),
        _ => fresh(random, world, kept),
    };
    let place = random.below(4) as usize;
    match random.below(8) {
        0 => words = leftover(random, world),
        1 => words[place] ^= 1 << random.below(64),
        2 if place >= 2 => words[place] = elsewhere(random, words[place]),
        3 => words[0] ^= random.pick(&[EL2, EL2_E2H, EL2 | EL2_E2H, 0]),
        _ => (),
    }
    let large = random.next() << 32 | random.below(4);
    let allowance = random.pick(&[0, 1, 2, 3, 4, 5, 6, u64::MAX, large]);
    Call::Fill {
        row,
        words,
        allowance,
    }
}

/// A new WR, mostly further on and within the ring.
pub fn any_doorbell(random: &mut Random, kept: &[u64]) -> Call<'static> {
    let control = Control::fields(kept.first().copied().unwrap_or(0));
    let ring = control.ring();
    let step = random.below(control.slots().min(64) + 1);
    let any = random.any_width();
    let wr = match random.below(12) {
        0 => control.wr,
        1 => (control.wr + ring - 1) % ring,
        2 => (control.rd + control.slots()) % ring,
        3 => random.pick(&[ring, ring + control.wr, any]),
        _ => (control.wr + step) % ring,
    };
    Call::Doorbell { wr }
}
