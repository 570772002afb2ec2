//! Runs over CMD_SYNCs among other commands, cut everywhere. What the bit has to
//! be after each of these calls is a law (laws.rs).

use super::{bytes, every_queue, run, ALL, KINDS, LOG2SIZE, STREAM};
use crate::checker::Checker;
use crate::generate::images::{shuffle, with_rows};
use crate::generate::random::Random;
use crate::generate::regions::empty;
use crate::generate::rows::cd_table;
use crate::limits;
use crate::model::control::Control;
use crate::phases::cuts::{all_along, every_cut, Work};
use crate::phases::{from, waiting};

pub fn sweeps(checker: &mut Checker) {
    checker.phase("pending: every queue of four commands cut at every store");
    every_queue(1 << LOG2SIZE, |work| every_cut(checker, work));
    checker.phase("pending: every code with each CS, and every bit of CMD_SYNC");
    alone(checker);
    let mut random = checker.phase("pending: one CMD_SYNC in the largest queue, cut all along");
    for pending in [false, true] {
        let work = one_of_many(&mut random, pending);
        all_along(checker, &work);
    }
}

/// CS is looked at in CMD_SYNC only, and of CMD_SYNC only CS; some of its other
/// bits raise.
fn alone(checker: &mut Checker) {
    let mut one = |low: u64, high: u64| {
        for pending in [false, true] {
            let control = Control {
                pending,
                ..waiting(0, 1)
            };
            let mut kept = with_rows(control, &[cd_table(STREAM)]);
            checker.call(&mut kept, run(&bytes(&[(low, high)]), ALL, 1));
        }
    };
    for (code, cs) in (0..256).flat_map(|code| (0..4).map(move |cs| (code, cs))) {
        one(code | cs << 12, 0);
    }
    for (low, _) in &KINDS[..4] {
        (8..64).for_each(|bit| one(low ^ 1 << bit, 0));
        (0..64).for_each(|bit| one(*low, 1 << bit));
        one(low | 0xFFFF_FFFF_0FC0_0000, u64::MAX);
    }
}

/// A full queue over a full table. One CMD_SYNC with CS 1 stands anywhere among
/// others, and among commands that remove a row each.
fn one_of_many(random: &mut Random, pending: bool) -> Work {
    let rows: Vec<_> = (0..limits::ROWS).map(cd_table).collect();
    let removing = (0..limits::ROWS).map(|stream| (0x06 | stream << 32, 0));
    let mut commands = vec![(0x1046, 0)];
    commands.extend(removing);
    commands.resize(limits::SLOTS as usize / 2, (0x46, 0));
    commands.resize(limits::SLOTS as usize, (0x2046, 0));
    shuffle(random, &mut commands);
    let rd = random.below(2 * limits::SLOTS);
    let control = Control {
        pending,
        ..from(limits::LOG2SIZE, rd, limits::SLOTS)
    };
    Work {
        kept: with_rows(control, &rows),
        table: empty(),
        queue: bytes(&commands),
        features: ALL,
    }
}
