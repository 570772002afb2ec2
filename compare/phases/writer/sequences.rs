//! Batches and the runs that consume them.

use super::{batch, command, ALL};
use crate::call::{Call, CUT, RAISED};
use crate::checker::Checker;
use crate::generate::commands::{allowance, features};
use crate::generate::fields::{any, bad};
use crate::generate::images::{control, image, table, with_rows};
use crate::generate::random::Random;
use crate::generate::regions;
use crate::generate::world::World;
use crate::limits::bytes;
use crate::model::control::Control;

pub fn sweeps(checker: &mut Checker) {
    let mut random = checker.phase("writer: batches, and runs that consume them");
    for _ in 0..1_200 {
        consumed(checker, &mut random);
    }
    let mut random = checker.phase("writer: batches, runs, doorbells and the rest in turns");
    for _ in 0..400 {
        turns(checker, &mut random);
    }
    let mut random = checker.phase("writer: a batch is its commands one by one");
    for _ in 0..1_500 {
        apart(checker, &mut random);
    }
}

const CONSUMED: &str = "a run doesn't consume what a batch wrote";

fn run(queue: &[u8], features: u64, allowance: u64) -> Call<'_> {
    Call::Run {
        queue,
        features,
        allowance,
    }
}

/// Batches into an empty queue, again and again round the ring. The run that follows
/// under the same features never raises, and with or without cuts comes to the end.
fn consumed(checker: &mut Checker, random: &mut Random) {
    let world = World::new(random);
    let features = features(random);
    let log2size = random.between(0, 4);
    let slots = 1 << log2size;
    let start = control(random, log2size);
    let start = Control {
        wr: start.rd,
        enabled: true,
        gerrorn: start.gerror,
        ..start
    };
    let rows = random.between(1, 12) as usize;
    let mut kept = with_rows(start, &table(random, &world, rows));
    let mut regions = regions::table(random, &world);
    let mut queue: Vec<u8> = (0..bytes(log2size)).map(|_| random.next() as u8).collect();
    for _ in 0..4 {
        let count = random.between(0, slots);
        let commands: Vec<u64> = (0..count)
            .flat_map(|_| any(random, &world, features))
            .collect();
        let before = kept.clone();
        let call = batch(&commands, features);
        let reply = checker.write(&mut kept, &mut queue, call);
        // Where the features let few codes be, some may be illegal.
        if reply.number != 0 {
            continue;
        }
        let wrapped = Control::fields(before[0]).wr > Control::fields(kept[0]).wr;
        let mut left = count;
        let mut allowance = random.pick(&[0, 1, 3, u64::MAX]);
        loop {
            let before = kept.clone();
            let call = run(&queue, features, allowance);
            let reply = checker.both(&mut kept, &mut regions, call);
            let [end, consumed, ..] = reply.answer;
            left -= consumed;
            let met = reply.number == 0 && end != RAISED && (end == CUT || left == 0);
            checker.insist(met, CONSUMED, &before, call, (reply, &kept));
            if end != CUT {
                break;
            }
            allowance = random.pick(&[1, 2, 5, u64::MAX]);
        }
        checker.tally.writer.count_consumed(count, wrapped);
    }
}

/// A guest that writes by batches, right or wrong, while the monitor runs, cuts, fills
/// and acknowledges.
fn turns(checker: &mut Checker, random: &mut Random) {
    let world = World::new(random);
    let features = features(random);
    let mut kept = image(random, &world);
    let mut regions = regions::table(random, &world);
    let log2size = Control::fields(kept[0]).log2size.min(6);
    kept[0] = control(random, log2size).pack();
    let mut queue: Vec<u8> = (0..bytes(log2size)).map(|_| random.next() as u8).collect();
    for _ in 0..16 {
        match random.below(8) {
            0..=3 => {
                let count = random.below(5);
                let rarity = random.pick(&[3, 100]);
                let commands: Vec<u64> = (0..count)
                    .flat_map(|_| match random.once_in(rarity) {
                        true => bad(random, &world, features),
                        false => any(random, &world, features),
                    })
                    .collect();
                checker.write(&mut kept, &mut queue, batch(&commands, features));
            }
            4 | 5 => {
                let call = run(&queue, features, allowance(random));
                let reply = checker.both(&mut kept, &mut regions, call);
                if reply.answer[0] == RAISED {
                    // The guest mends the command in its slot.
                    let slot = 16 * reply.answer[6] as usize;
                    let fields = any(random, &world, features);
                    let call = command(&fields, features);
                    checker.write(&mut [], &mut queue[slot..slot + 16], call);
                    checker.call(&mut kept, Call::Acknowledge);
                }
            }
            6 => drop(checker.call(&mut kept, Call::Enable { on: 1 })),
            _ => drop(checker.call(&mut kept, Call::State)),
        }
    }
}

const APART: &str = "a batch isn't its commands written one by one, and the doorbell";

/// One batch; each command by the writer into its slot and then the doorbell; a batch
/// for each command.
fn apart(checker: &mut Checker, random: &mut Random) {
    let world = World::new(random);
    let log2size = random.between(0, 5);
    let control = control(random, log2size);
    let free = control.slots() - control.distance(control.wr);
    let count = random.between(0, free);
    let list: Vec<_> = (0..count).map(|_| any(random, &world, ALL)).collect();
    let before = with_rows(control, &table(random, &world, 3));
    let old: Vec<u8> = (0..bytes(log2size)).map(|_| random.next() as u8).collect();

    let (mut kept, mut queue) = (before.clone(), old.clone());
    let commands = list.concat();
    let call = batch(&commands, ALL);
    let reply = checker.write(&mut kept, &mut queue, call);
    if reply.number != 0 {
        return;
    }
    let (mut single, mut slots) = (before.clone(), old.clone());
    for (index, fields) in (control.wr..).zip(&list) {
        let slot = 16 * (index % control.slots()) as usize;
        checker.write(&mut [], &mut slots[slot..slot + 16], command(fields, ALL));
    }
    let wr = (control.wr + count) % control.ring();
    checker.call(&mut single, Call::Doorbell { wr });
    let (mut each, mut written) = (before.clone(), old);
    for fields in &list {
        checker.write(&mut each, &mut written, batch(fields, ALL));
    }
    let same = single == kept && slots == queue && each == kept && written == queue;
    checker.insist(same, APART, &before, call, (reply, &kept));
}
