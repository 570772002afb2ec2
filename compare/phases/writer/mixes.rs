//! Commands and batches by chance, over accepted memories and damaged ones.

use super::{batch, command, ALL};
use crate::checker::Checker;
use crate::generate::commands::{features, queue_with};
use crate::generate::damage::{damage, misfit};
use crate::generate::fields::{any, bad};
use crate::generate::images::image;
use crate::generate::random::Random;
use crate::generate::world::World;
use crate::limits::SLOTS;
use crate::model::control::Control;

pub fn sweeps(checker: &mut Checker) {
    let mut random = checker.phase("writer: any command into any slot");
    for _ in 0..30_000 {
        single(checker, &mut random);
    }
    let mut random = checker.phase("writer: any batch over accepted memories");
    for _ in 0..12_000 {
        let world = World::new(&mut random);
        let mut kept = image(&mut random, &world);
        batched(checker, &mut random, &world, &mut kept);
    }
    let mut random = checker.phase("writer: any batch over damaged memories");
    for _ in 0..12_000 {
        let world = World::new(&mut random);
        let mut kept = image(&mut random, &world);
        damage(&mut random, &mut kept);
        batched(checker, &mut random, &world, &mut kept);
    }
}

fn single(checker: &mut Checker, random: &mut Random) {
    let world = World::new(random);
    let some = features(random);
    let features = random.pick(&[some, some, ALL]);
    let fields = match random.below(3) {
        0 => any(random, &world, features),
        _ => bad(random, &world, features),
    };
    let length = random.pick(&[16, 16, 16, 16, 16, 16, 16, 0, 15, 17, 32]);
    let mut slot: Vec<u8> = (0..length).map(|_| random.next() as u8).collect();
    checker.write(&mut [], &mut slot, command(&fields, features));
}

/// About as many commands as there are free slots, one in so many of them bad; now and
/// then the last one isn't whole, or the queue has another length.
fn batched(checker: &mut Checker, random: &mut Random, world: &World, kept: &mut [u64]) {
    let features = features(random);
    let control = Control::fields(kept.first().copied().unwrap_or(0));
    let slots = control.slots().min(SLOTS);
    let mut queue = queue_with(random, world, features, slots.min(64), 4);
    queue.resize(16 * slots as usize, 0xA5);
    if random.once_in(12) {
        misfit(random, &mut queue);
    }
    let free = slots.saturating_sub(control.distance(control.wr % control.ring()));
    let some = random.below(6);
    let count = random.pick(&[some, some, 0, free, free + 1, free.saturating_sub(1)]);
    let rarity = random.pick(&[2, 16, 1_000, 1_000]);
    let commands = (0..count.min(70)).map(|_| match random.once_in(rarity) {
        true => bad(random, world, features),
        false => any(random, world, features),
    });
    let mut commands: Vec<u64> = commands.flatten().collect();
    if random.once_in(16) {
        let words = commands.len() + random.between(1, 15) as usize;
        commands.resize(words, 0);
    }
    checker.write(kept, &mut queue, batch(&commands, features));
}
