//! Accepted memories, and the queue that goes with them.

use super::commands;
use super::random::Random;
use super::rows::{any_row, chain, Words};
use super::world::World;
use crate::limits::{LOG2SIZE, ROWS, SLOTS};
use crate::model::control::Control;

/// Mostly small tables, now and then one up to the limit.
fn row_count(random: &mut Random) -> usize {
    let limit = random.pick(&[1, 4, 8, 8, 16, 16, 16, 32, ROWS]);
    random.between(1, limit) as usize
}

/// A well-formed control word for a queue of 2^log2size slots.
pub fn control(random: &mut Random, log2size: u64) -> Control {
    let slots = 1 << log2size;
    let ring = 2 * slots;
    let anywhere = random.below(ring);
    let rd = random.pick(&[0, slots - 1, slots, ring - 1, anywhere]);
    let some = random.below(slots + 1);
    let wr = (rd + random.pick(&[0, 1, slots, some, some])) % ring;
    let (gerror, pending) = random.coins();
    let active = random.once_in(10);
    Control {
        rd,
        wr,
        err: u64::from(active || random.once_in(3)),
        gerror,
        gerrorn: gerror != active,
        enabled: !random.once_in(10),
        log2size,
        pending,
    }
}

/// Queues of few slots, now and then up to the limit.
pub fn any_size(random: &mut Random) -> u64 {
    let limit = random.pick(&[0, 1, 2, 3, 3, 4, 5, LOG2SIZE]);
    random.between(0, limit)
}

/// A control word before the given rows.
pub fn with_rows(control: Control, rows: &[Words]) -> Vec<u64> {
    std::iter::once(control.pack())
        .chain(rows.iter().flatten().copied())
        .collect()
}

/// An empty row whose other words look like what once stood there.
pub fn leftover(random: &mut Random, world: &World) -> Words {
    let [_, w1, w2, w3] = any_row(random, world);
    let dirt = if random.once_in(4) { random.next() } else { 0 };
    [0, w1 ^ dirt, w2, w3 ^ dirt]
}

/// `count` rows: some empty, some chains with their rows in any order.
pub fn table(random: &mut Random, world: &World, count: usize) -> Vec<Words> {
    let mut rows = Vec::new();
    while rows.len() < count {
        match random.below(8) {
            0 => rows.push(leftover(random, world)),
            1 | 2 => {
                let (stream, page) = (world.stream(random), world.input(random));
                rows.extend(chain(random, world, stream, page));
            }
            _ => rows.push(any_row(random, world)),
        }
    }
    shuffle(random, &mut rows);
    rows.truncate(count);
    rows
}

pub fn shuffle<T>(random: &mut Random, items: &mut [T]) {
    for place in (1..items.len()).rev() {
        items.swap(place, random.below(place as u64 + 1) as usize);
    }
}

/// An accepted memory.
pub fn image(random: &mut Random, world: &World) -> Vec<u64> {
    let size = any_size(random);
    let count = row_count(random);
    with_rows(control(random, size), &table(random, world, count))
}

/// A queue of the length that the memory's control word asks for, but not above
/// the largest, which an ill-formed word may ask for.
pub fn queue_for(random: &mut Random, world: &World, kept: &[u64], features: u64) -> Vec<u8> {
    let word = kept.first().copied().unwrap_or(0);
    let slots = Control::fields(word).slots().min(SLOTS);
    commands::queue(random, world, features, slots)
}
