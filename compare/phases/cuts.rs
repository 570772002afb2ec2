//! Power cuts: a run or a fill stopped after any number of stores and called
//! again (document 01, One run).

use super::{bytes, waiting};
use crate::call::{Call, CUT};
use crate::checker::Checker;
use crate::generate::commands::{features, queue_with, settings, FOUR, HYP};
use crate::generate::doubles::{fresh, near};
use crate::generate::images::{control, image, queue_for, shuffle, table, with_rows};
use crate::generate::random::Random;
use crate::generate::regions;
use crate::generate::rows::{any_row, Reach, STAGE1};
use crate::generate::world::World;
use crate::limits;
use crate::model::control::Control;

pub fn cuts(checker: &mut Checker) {
    full_queues(checker);
    largest(checker);
    chains(checker);
    fills(checker);
}

/// A memory, the second table, the queue and the features to run it with.
pub struct Work {
    pub kept: Vec<u64>,
    pub table: Vec<u64>,
    pub queue: Vec<u8>,
    pub features: u64,
}

impl Work {
    pub fn run(&self, allowance: u64) -> Call<'_> {
        Call::Run {
            queue: &self.queue,
            features: self.features,
            allowance,
        }
    }

    /// A copy of the memory and of the second table.
    pub fn lent(&self) -> (Vec<u64>, Vec<u64>) {
        (self.kept.clone(), self.table.clone())
    }
}

/// A rarity at which a whole queue is legal.
const NEVER: u64 = u64::MAX;

/// Queue and table over which a run is cut at every one of its stores: a
/// sixteenth of the largest queue, over half as many rows. What such cuts cost
/// grows with the stores times the rows times the commands.
const LOG2SIZE: u64 = limits::LOG2SIZE - 4;
const ROWS: u64 = (1 << LOG2SIZE) / 2;

/// At how many places a run over the largest queue and table is cut.
const PLACES: u64 = 1_000;

/// A full queue over a full table, starting anywhere in the ring; an illegal
/// command comes about once in `rarity`.
fn full(random: &mut Random, log2size: u64, rows: u64, rarity: u64) -> Work {
    let world = World::new(random);
    let any = control(random, log2size);
    let full = Control {
        wr: (any.rd + any.slots()) % any.ring(),
        gerrorn: any.gerror,
        enabled: true,
        ..any
    };
    let rows: Vec<_> = (0..rows).map(|_| any_row(random, &world)).collect();
    let features = if rarity == NEVER {
        FOUR | HYP | settings(random)
    } else {
        features(random)
    };
    let queue = queue_with(random, &world, features, any.slots(), rarity);
    Work {
        kept: with_rows(full, &rows),
        table: regions::table(random, &world),
        queue,
        features,
    }
}

fn full_queues(checker: &mut Checker) {
    let mut random = checker.phase("a full queue cut at every store");
    let some = [500, 500, 200, 200, 100, 100, 50, 20];
    for rarity in [NEVER; 4].into_iter().chain(some) {
        let work = full(&mut random, LOG2SIZE, ROWS, rarity);
        every_cut(checker, &work);
    }
}

const SINGLE: &str = "one store more isn't one word more";
const SAME: &str = "a cut run called again isn't the uncut run";
const SPENT: &str = "a run ended before its stores were made";

/// The run cut after each number of stores, and then called to its end.
pub fn every_cut(checker: &mut Checker, work: &Work) {
    let (mut whole, mut whole_table) = work.lent();
    let uncut = checker.both(&mut whole, &mut whole_table, work.run(u64::MAX));
    let (mut previous, mut previous_table) = work.lent();
    for allowance in 0..=uncut.answer[2] {
        let (mut kept, mut table) = work.lent();
        let call = work.run(allowance);
        let first = checker.both(&mut kept, &mut table, call);
        let words = changed(&previous, &kept) + changed(&previous_table, &table);
        let single = words == allowance.min(1);
        checker.insist(single, SINGLE, &work.kept, call, (first, &kept));
        previous.clone_from(&kept);
        previous_table.clone_from(&table);
        let mut sums = first.answer;
        if first.answer[0] == CUT {
            let rest = checker.both(&mut kept, &mut table, work.run(u64::MAX));
            add(&mut sums, rest.answer);
        }
        let equal = kept == whole && table == whole_table && sums == uncut.answer;
        checker.insist(equal, SAME, &work.kept, call, (first, &kept));
    }
}

fn changed(before: &[u64], after: &[u64]) -> u64 {
    let pairs = before.iter().zip(after);
    pairs.filter(|(then, now)| then != now).count() as u64
}

/// Adds the four counts; the end and what it carries are the last call's.
fn add(sums: &mut [u64; 8], answer: [u64; 8]) {
    let counts: [u64; 4] = std::array::from_fn(|place| sums[place + 1]);
    *sums = answer;
    (0..4).for_each(|place| sums[place + 1] += counts[place]);
}

/// The largest queue over the largest table, cut at places all along the run:
/// commands and rows by chance, and as many stores as a run can make.
fn largest(checker: &mut Checker) {
    let mut random = checker.phase("the largest queue and table cut at a thousand places");
    let any = full(&mut random, limits::LOG2SIZE, limits::ROWS, NEVER);
    all_along(checker, &any);
    let spread = one_row_each(&mut random);
    all_along(checker, &spread);
}

/// A row for each VMID, and one command for each of them, anywhere among those
/// that remove nothing.
fn one_row_each(random: &mut Random) -> Work {
    let reach = Reach {
        kind: STAGE1,
        vmid: 0,
        asid: 0,
        global: false,
        span: 12,
        page: 0,
    };
    let of = |vmid| Reach { vmid, ..reach }.table();
    let rows: Vec<_> = (0..limits::ROWS).map(of).collect();
    let removing = (0..limits::ROWS).map(|vmid| (0x10 | vmid << 32, 0));
    let mut commands: Vec<_> = removing.collect();
    commands.resize(limits::SLOTS as usize, (0x1046, 0));
    shuffle(random, &mut commands);
    Work {
        kept: with_rows(waiting(limits::LOG2SIZE, limits::SLOTS), &rows),
        table: regions::empty(),
        queue: bytes(&commands),
        features: 0b1111,
    }
}

/// One run cut at so many places, each call going on where the last was cut.
pub fn all_along(checker: &mut Checker, work: &Work) {
    let (mut whole, mut whole_table) = work.lent();
    let call = work.run(u64::MAX);
    let uncut = checker.both(&mut whole, &mut whole_table, call);
    let stores = uncut.answer[2];
    let (mut kept, mut table) = work.lent();
    let mut sums = [CUT, 0, 0, 0, 0, 0, 0, 0];
    for place in 1..=PLACES {
        let allowance = stores * place / (PLACES + 1) - sums[2];
        let reply = checker.both(&mut kept, &mut table, work.run(allowance));
        add(&mut sums, reply.answer);
        checker.insist(sums[0] == CUT, SPENT, &work.kept, call, (reply, &kept));
    }
    let rest = checker.both(&mut kept, &mut table, call);
    add(&mut sums, rest.answer);
    let equal = kept == whole && table == whole_table && sums == uncut.answer;
    checker.insist(equal, SAME, &work.kept, call, (uncut, &kept));
}

/// Runs cut again and again, each time after a few stores.
fn chains(checker: &mut Checker) {
    let mut random = checker.phase("chains of cuts");
    for _ in 0..6_000 {
        let world = World::new(&mut random);
        let features = features(&mut random);
        let kept = image(&mut random, &world);
        let queue = queue_for(&mut random, &world, &kept, features);
        let work = Work {
            kept,
            table: regions::table(&mut random, &world),
            queue,
            features,
        };
        chain(checker, &mut random, &work);
    }
}

fn chain(checker: &mut Checker, random: &mut Random, work: &Work) {
    let (mut whole, mut whole_table) = work.lent();
    let call = work.run(u64::MAX);
    let uncut = checker.both(&mut whole, &mut whole_table, call);
    let step = random.pick(&[1, 2, 5, 20]).max(uncut.answer[2] / 8);
    let (mut kept, mut table) = work.lent();
    let mut sums = [CUT, 0, 0, 0, 0, 0, 0, 0];
    while sums[0] == CUT {
        let allowance = random.between(0, 2 * step);
        let reply = checker.both(&mut kept, &mut table, work.run(allowance));
        add(&mut sums, reply.answer);
    }
    let equal = kept == whole && table == whole_table && sums == uncut.answer;
    checker.insist(equal, SAME, &work.kept, call, (uncut, &kept));
}

/// Fills with every allowance from 0 to 6, called again until refused as used, or
/// each time as doubles.
fn fills(checker: &mut Checker) {
    let mut random = checker.phase("fills cut at every store");
    for _ in 0..700 {
        let world = World::new(&mut random);
        let count = random.between(1, 6);
        let mut rows = table(&mut random, &world, count as usize);
        let row = random.below(count);
        rows[row as usize][0] = 0;
        let stand = with_rows(waiting(0, 0), &rows);
        let words = if random.once_in(4) {
            near(&mut random, &world, &stand)
        } else {
            fresh(&mut random, &world, &stand)
        };
        for allowance in 0..=6 {
            let mut kept = with_rows(control(&mut random, 1), &rows);
            for allowance in [allowance, random.below(4), allowance, 4] {
                checker.call(
                    &mut kept,
                    Call::Fill {
                        row,
                        words,
                        allowance,
                    },
                );
            }
        }
    }
}
