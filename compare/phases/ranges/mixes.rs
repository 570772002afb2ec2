//! Queues of commands with ranges and without, over rows that stand close together.

use super::{bytes, ASID, VMID, WRITE_BACK};
use crate::call::CUT;
use crate::checker::Checker;
use crate::generate::commands::{features, of_code, spoilt, Command, RANGED, RIL};
use crate::generate::images::{shuffle, table, with_rows};
use crate::generate::random::Random;
use crate::generate::ranges::any;
use crate::generate::regions::empty;
use crate::generate::rows::{marked, Reach, Words, MARKS, STAGE1, STAGE2};
use crate::generate::world::World;
use crate::limits::{ADDRESS, UPPER};
use crate::phases::cuts::Work;
use crate::phases::waiting;

pub fn sweeps(checker: &mut Checker) {
    let mut random = checker.phase("ranges: queues with ranges and single addresses");
    for round in 0..6_000 {
        let work = mixed(&mut random, round);
        let whole = checker.call(&mut work.kept.clone(), work.run(u64::MAX));
        let mut kept = work.kept.clone();
        let allowance = random.below(whole.answer[2] + 1);
        let first = checker.call(&mut kept, work.run(allowance));
        if first.answer[0] == CUT {
            checker.call(&mut kept, work.run(u64::MAX));
        }
    }
}

/// A place that rows and commands share: in either half, mostly near its end.
fn place(random: &mut Random) -> u64 {
    let far = random.next() % (ADDRESS / 2) >> 12 << 12;
    let half = random.pick(&[0, UPPER]);
    half + random.pick(&[0, 0x40_0000, far, ADDRESS - 0x40_0000, ADDRESS - 0x4_0000])
}

/// Some pages from there on, but not beyond the half.
fn page(random: &mut Random, place: u64) -> u64 {
    let limit = random.pick(&[4, 16, 64, 512]);
    let page = (place % ADDRESS + (random.below(limit) << 12)) % ADDRESS;
    place / ADDRESS * ADDRESS + page
}

/// A row of any stage, sort and level at such a page.
fn near(random: &mut Random, place: u64) -> Words {
    let number = random.next();
    let kind = if number & 7 == 0 { STAGE2 } else { STAGE1 };
    let page = page(random, place);
    let reach = Reach {
        kind,
        vmid: VMID + (number >> 3 & 1),
        asid: ASID + (number >> 4 & 1),
        global: number >> 5 & 3 == 0,
        span: random.pick(&[12, 12, 12, 13, 14, 16, 17, 21, 30]),
        page: if kind == STAGE2 { page % ADDRESS } else { page },
    };
    let row = match number >> 8 & 1 {
        0 => reach.page(0, WRITE_BACK),
        _ => reach.table(),
    };
    match number >> 9 & 3 {
        0 if kind == STAGE1 => marked(row, random.pick(&MARKS)),
        _ => row,
    }
}

/// A command by address for those rows.
fn about(random: &mut Random, code: u64, place: u64) -> Command {
    let (vmid, asid) = (
        (VMID + random.below(2)) << 32,
        (ASID + random.below(2)) << 48,
    );
    let low = match code {
        0x12 => vmid | asid,
        0x22 => asid,
        0x23 => 0,
        _ => vmid,
    };
    let page = page(random, place);
    let page = if code == 0x2A { page % ADDRESS } else { page };
    (low | code, page | random.below(2))
}

/// Rows in one place, and a command of the code there.
pub fn crowd(random: &mut Random, code: u64) -> (Vec<Words>, Command) {
    let place = place(random);
    let rows = (0..24).map(|_| near(random, place)).collect();
    (rows, about(random, code, place))
}

/// A full queue, mostly legal.
fn mixed(random: &mut Random, round: u64) -> Work {
    let log2size = random.between(1, 5);
    let place = place(random);
    let world = World::new(random);
    let mut rows: Vec<Words> = (0..random.between(1, 40))
        .map(|_| near(random, place))
        .collect();
    rows.extend(table(random, &world, 4));
    shuffle(random, &mut rows);
    let command = |random: &mut Random| {
        let (code, other) = (random.pick(&RANGED), random.pick(&[0x03, 0x11, 0x21, 0x46]));
        let command = about(random, code, place);
        match random.below(12) {
            0 => spoilt(random, &world),
            1 | 2 => of_code(random, &world, other),
            3..=5 => command,
            _ => any(random).over(command),
        }
    };
    let commands: Vec<Command> = (0..1 << log2size).map(|_| command(random)).collect();
    Work {
        kept: with_rows(waiting(log2size, 1 << log2size), &rows),
        table: empty(),
        queue: bytes(&commands),
        features: features(random) | if round % 8 == 0 { 0 } else { RIL },
    }
}
