//! Batches by chance, over images that their commands collide with, and proposals that
//! are made from the originals.

use super::{ask, bytes, call, related, Image};
use crate::call::{UNQUALIFIED, YES};
use crate::checker::Checker;
use crate::generate::commands::{features, of_code, spoilt, usual, Command, DPT};
use crate::generate::damage::damage;
use crate::generate::images::{self, shuffle};
use crate::generate::random::Random;
use crate::generate::ranges::{reaching, Range};
use crate::generate::regions::{self, any_about};
use crate::generate::rows::Words;
use crate::generate::world::World;
use crate::model::command::{decode, Features};
use crate::phases::check::samples::FIT;

pub fn sweeps(checker: &mut Checker) {
    let mut random = checker.phase("check: batches and proposals by chance");
    for _ in 0..6_000 {
        let (image, world) = image(&mut random);
        let original = batch(&mut random, &world, image.features);
        let proposed = proposal(&mut random, &world, &image, &original);
        related(checker, &image, &bytes(&original), &bytes(&proposed));
    }
    let mut random = checker.phase("check: three batches on one image");
    for _ in 0..1_500 {
        three(checker, &mut random);
    }
    let mut random = checker.phase("check: the same commands in another order, and more often");
    for _ in 0..1_500 {
        alike(checker, &mut random);
    }
    let mut random = checker.phase("check: damaged images and batches");
    for _ in 0..3_000 {
        damaged(checker, &mut random);
    }
}

/// An image of a few rows, mostly, and features; DPT more often than not.
fn image(random: &mut Random) -> (Image, World) {
    let world = World::new(random);
    let limit = random.pick(&[2, 6, 12, 30]);
    let count = random.between(1, limit) as usize;
    let size = images::any_size(random);
    let rows: Vec<Words> = images::table(random, &world, count);
    let image = Image {
        kept: images::with_rows(images::control(random, size), &rows),
        table: regions::table(random, &world),
        features: features(random) | random.pick(&[0, DPT]),
    };
    (image, world)
}

/// A command that mostly qualifies.
fn command(random: &mut Random, world: &World, features: u64) -> Command {
    for _ in 0..8 {
        let code = random.pick(&FIT);
        let (low, high) = match random.below(4) {
            0 => any_about(random, world),
            _ => reaching(of_code(random, world, code), 3),
        };
        if decode(low, high, Features::from_bits(features)).is_ok() {
            return (low, high);
        }
    }
    (0x30, 0)
}

/// Few commands more often than many; now and then one that doesn't qualify.
fn batch(random: &mut Random, world: &World, features: u64) -> Vec<Command> {
    let limit = random.pick(&[1, 2, 4, 4, 8, 20]);
    let count = random.between(0, limit);
    let rarity = random.pick(&[6, 1000, 1000]);
    let one = |random: &mut Random| match random.once_in(rarity) {
        true if random.once_in(2) => spoilt(random, world),
        true => usual(random, world, features),
        false => command(random, world, features),
    };
    (0..count).map(|_| one(random)).collect()
}

/// The original, changed a little or as a whole.
fn proposal(
    random: &mut Random,
    world: &World,
    image: &Image,
    original: &[Command],
) -> Vec<Command> {
    let mut proposed = original.to_vec();
    for _ in 0..random.between(1, 2) {
        let place = random.below(proposed.len() as u64 + 1) as usize;
        match random.below(10) {
            0 => shuffle(random, &mut proposed),
            1 if place < proposed.len() => drop(proposed.remove(place)),
            2 if place < proposed.len() => proposed.push(proposed[place]),
            3 => proposed.insert(place, command(random, world, image.features)),
            4 | 5 if place < proposed.len() => proposed[place] = near(random, proposed[place]),
            6 => proposed.insert(place, spoilt(random, world)),
            7 if place < proposed.len() => proposed[place] = wider(proposed[place]),
            8 if random.once_in(3) => proposed = batch(random, world, image.features),
            _ => (),
        }
    }
    proposed
}

/// A command that is almost this one: another Leaf, page, identifier or range.
fn near(random: &mut Random, (low, high): Command) -> Command {
    match random.below(6) {
        0 => (low, high ^ 1),
        1 => (low, high ^ 1 << random.between(12, 51)),
        2 => (low ^ 1 << random.between(32, 63), high),
        3 => (low ^ 1 << random.between(12, 16), high),
        4 => (low ^ 1 << random.between(20, 24), high),
        _ => Range::new(1, 1, 0).over((low, high)),
    }
}

/// One that takes all that this one does, or more.
fn wider((low, high): Command) -> Command {
    let vmid = low & 0xFFFF << 32;
    match low & 0xFF {
        0x03 => (low & !0xFF | 0x04, 5),
        0x05 => (low >> 32 << 32 | 0x06, 0),
        0x12 => (vmid | low & 0x1FF_F000 | 0x13, high),
        0x11 | 0x13 => (vmid | 0x10, 0),
        0x10 | 0x2A => (vmid | 0x28, 0),
        0x21..=0x23 => (0x20, 0),
        0x28 => (0x30, 0),
        0x73 => (0x70, 0),
        _ => (low, high),
    }
}

/// A yes for two pairs is one for the third.
fn three(checker: &mut Checker, random: &mut Random) {
    let (image, world) = image(random);
    let one = batch(random, &world, image.features);
    let two = proposal(random, &world, &image, &one);
    let three = proposal(random, &world, &image, &two);
    let [one, two, three] = [one, two, three].map(|batch| bytes(&batch));
    let pairs = [[&one, &two], [&two, &three], [&one, &three]];
    let replies = pairs.map(|[original, proposed]| ask(checker, &image, original, proposed));
    let yes = replies.map(|reply| reply.answer[0] == YES);
    let told = replies.map(|reply| reply.answer);
    let fit = told.iter().all(|answer| answer[0] != UNQUALIFIED);
    let met = yes.iter().filter(|&&yes| yes).count() != 2 || !fit;
    let law = "two pairs get a yes and the third one doesn't";
    let call = call(&one, &three, image.features);
    checker.insist(met, law, &image.kept, call, (replies[2], &image.kept));
}

/// The batch beside itself in another order, with commands once more, and both: a yes, or
/// it has a command that doesn't qualify.
fn alike(checker: &mut Checker, random: &mut Random) {
    let (image, world) = image(random);
    let original = batch(random, &world, image.features);
    let mut other = original.clone();
    for &command in &original {
        if random.once_in(3) {
            let place = random.below(other.len() as u64 + 1) as usize;
            other.insert(place, command);
        }
    }
    let mut shuffled = other.clone();
    shuffle(random, &mut shuffled);
    let original = bytes(&original);
    for proposed in [bytes(&other), bytes(&shuffled)] {
        let reply = related(checker, &image, &original, &proposed);
        let named = reply.answer[..2] == [UNQUALIFIED, 0];
        let met = named || reply.answer == [0; 8];
        let law = "the same commands in another order or more often get no yes";
        let call = call(&original, &proposed, image.features);
        checker.insist(met, law, &image.kept, call, (reply, &image.kept));
    }
}

/// Images and second tables with something wrong, and batches with bytes over.
fn damaged(checker: &mut Checker, random: &mut Random) {
    let (mut image, world) = image(random);
    let mut original = bytes(&batch(random, &world, image.features));
    let mut proposed = bytes(&batch(random, &world, image.features));
    if random.once_in(2) {
        damage(random, &mut image.kept);
    }
    if random.once_in(2) {
        regions::damage(random, &mut image.table);
    }
    for batch in [&mut original, &mut proposed] {
        if random.once_in(4) {
            let length = batch.len() + random.between(1, 31) as usize;
            batch.resize(length, 0x03);
        }
    }
    ask(checker, &image, &original, &proposed);
}
