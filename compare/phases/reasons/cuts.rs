//! Runs that raise, cut on the way: the reason and the slot of the last call are
//! those of the uncut run.

use super::{bytes, from, raises, FEATURES, ILLEGAL};
use crate::checker::Checker;
use crate::generate::commands::Command;
use crate::generate::images::{shuffle, with_rows};
use crate::generate::random::Random;
use crate::generate::regions::empty;
use crate::generate::rows::{cd, cd_table, ste, Reach, Words, STAGE1};
use crate::limits::{LOG2SIZE, ROWS, SLOTS};
use crate::phases::cuts::{all_along, every_cut, Work};

const STREAM: u64 = 0x77;

pub fn sweeps(checker: &mut Checker) {
    let small = 3;
    checker.phase("reasons: a run that raises cut at every store");
    for rd in 0..2 << small {
        for reason in 1..=4 {
            let work = raising(checker, small, rd, (few(), &rows()), reason);
            every_cut(checker, &work);
        }
    }
    let mut random = checker.phase("reasons: the largest queue and table raise, cut all along");
    let each: Vec<Words> = (0..ROWS).map(cd_table).collect();
    for reason in 1..=4 {
        let rd = random.below(2 * SLOTS);
        let legal = one_row_each(&mut random);
        let work = raising(checker, LOG2SIZE, rd, (legal, &each), reason);
        all_along(checker, &work);
    }
}

/// Legal commands from `rd` on, over their rows, then two that are illegal for
/// different reasons; the first of them raises.
fn raising(
    checker: &mut Checker,
    log2size: u64,
    rd: u64,
    (legal, rows): (Vec<Command>, &[Words]),
    reason: u64,
) -> Work {
    let slots = 1 << log2size;
    let slot = (rd + legal.len() as u64) % slots;
    let mut commands = legal;
    commands.extend([reason - 1, reason % 4].map(|place| ILLEGAL[place as usize]));
    let control = from(log2size, rd, commands.len() as u64);
    commands.resize(slots as usize, (0, 0));
    commands.rotate_right((rd % slots) as usize);
    let work = Work {
        kept: with_rows(control, rows),
        table: empty(),
        queue: bytes(&commands),
        features: FEATURES,
    };
    let uncut = work.run(u64::MAX);
    raises(checker, &mut work.kept.clone(), uncut, (reason, slot));
    work
}

/// Commands that remove two rows, none and three.
fn few() -> Vec<Command> {
    vec![(0x10, 0), (0x1046, 0), (0x03 | STREAM << 32, 0)]
}

fn rows() -> [Words; 6] {
    let page = Reach {
        kind: STAGE1,
        vmid: 0,
        asid: 9,
        global: false,
        span: 12,
        page: 0x1000,
    };
    [
        cd(STREAM, 5, 9),
        page.table(),
        ste(STREAM + 1, 0, 4, 0),
        ste(STREAM, 0, 7, 0),
        cd_table(STREAM),
        page.page(0x8000, 15),
    ]
}

/// A command for the row of each stream, anywhere among those that remove nothing;
/// two slots of the largest queue are left.
fn one_row_each(random: &mut Random) -> Vec<Command> {
    let removing = (0..ROWS).map(|stream| (0x06 | stream << 32, 0));
    let mut commands: Vec<Command> = removing.collect();
    commands.resize(SLOTS as usize - 2, (0x1046, 0));
    shuffle(random, &mut commands);
    commands
}
