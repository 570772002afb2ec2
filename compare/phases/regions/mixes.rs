//! Queues of old commands and new ones, over both tables.

use super::{bytes, run, waiting, ALL};
use crate::call::{CUT, RAISED};
use crate::checker::Checker;
use crate::generate::commands::{features, spoilt, usual, Command, DPT};
use crate::generate::images::{self, with_rows};
use crate::generate::random::Random;
use crate::generate::regions::{self, any_about};
use crate::generate::world::World;
use crate::phases::cuts::Work;

pub fn sweeps(checker: &mut Checker) {
    let mut random = checker.phase("regions: queues of old commands and new ones");
    for round in 0..4_000 {
        let work = mixed(&mut random, round);
        let (mut kept, mut table) = work.lent();
        let whole = checker.both(&mut kept, &mut table, work.run(u64::MAX));
        let (mut kept, mut table) = work.lent();
        let allowance = random.below(whole.answer[2] + 1);
        let first = checker.both(&mut kept, &mut table, work.run(allowance));
        if first.answer[0] == CUT {
            checker.both(&mut kept, &mut table, work.run(u64::MAX));
        }
    }
    let mut random = checker.phase("regions: a queue is its old commands and its new ones");
    for _ in 0..2_000 {
        apart(checker, &mut random);
    }
}

fn mixed(random: &mut Random, round: u64) -> Work {
    let world = World::new(random);
    let log2size = random.between(0, 5);
    let features = features(random) | if round % 8 == 0 { 0 } else { DPT };
    let command = |random: &mut Random| match random.below(10) {
        0..=4 => any_about(random, &world),
        5 if random.once_in(3) => (0x70, 0),
        6 if random.once_in(2) => spoilt(random, &world),
        _ => usual(random, &world, features),
    };
    let commands: Vec<Command> = (0..1 << log2size).map(|_| command(random)).collect();
    let count = random.between(1, 30) as usize;
    Work {
        kept: with_rows(
            waiting(log2size, 1 << log2size),
            &images::table(random, &world, count),
        ),
        table: regions::table(random, &world),
        queue: bytes(&commands),
        features,
    }
}

const LAW: &str = "a queue isn't its old commands over one table and its new ones over the other";

/// A legal queue, and the same with a CMD_SYNC in the place of each old command, and
/// of each new one: what they leave is what the queue leaves.
fn apart(checker: &mut Checker, random: &mut Random) {
    let world = World::new(random);
    let (slots, log2size) = (16, 4);
    let commands: Vec<Command> = (0..slots)
        .map(|_| match random.below(2) {
            0 => any_about(random, &world),
            _ => usual(random, &world, ALL),
        })
        .collect();
    let own = |&(low, _): &Command| low == 0x70 || low & 0xFF == 0x73;
    let only = |kept: bool| -> Vec<u8> {
        let one = |command: &Command| match own(command) == kept {
            true => *command,
            false => (0x46, 0),
        };
        bytes(&commands.iter().map(one).collect::<Vec<_>>())
    };
    let before = with_rows(waiting(log2size, slots), &images::table(random, &world, 12));
    let table = regions::table(random, &world);
    let mut of = |queue: &[u8]| {
        let (mut kept, mut table) = (before.clone(), table.clone());
        let reply = checker.both(&mut kept, &mut table, run(queue, ALL, u64::MAX));
        (reply, kept, table)
    };
    let queue = bytes(&commands);
    let (reply, kept, left) = of(&queue);
    if reply.answer[0] == RAISED {
        return;
    }
    let (old, old_kept, old_left) = of(&only(false));
    let (new, new_kept, new_left) = of(&only(true));
    let counts = reply.answer[3] == old.answer[3] + new.answer[3];
    let untouched = old_left == table && new_kept[1..] == before[1..];
    let met = counts && untouched && kept[1..] == old_kept[1..] && left == new_left;
    let call = run(&queue, ALL, u64::MAX);
    checker.insist(met, LAW, &before, call, (reply, &kept));
}
