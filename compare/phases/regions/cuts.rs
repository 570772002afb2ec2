//! Runs over both tables cut at every store.

use super::{bytes, size, waiting, ALL, MIDDLE};
use crate::checker::Checker;
use crate::generate::commands::Command;
use crate::generate::images::{shuffle, with_rows};
use crate::generate::random::Random;
use crate::generate::regions::{about, region, with_regions, Pair};
use crate::generate::rows::{Reach, Words, STAGE1};
use crate::limits::{LOG2SIZE, REGIONS, ROWS, SLOTS};
use crate::phases::cuts::{all_along, every_cut, Work};

pub fn sweeps(checker: &mut Checker) {
    checker.phase("regions: runs over both tables cut at every store");
    for commands in queues() {
        every_cut(checker, &few(&commands));
    }
    let mut random = checker.phase("regions: both tables at their largest cut all along");
    all_along(checker, &one_row_each(&mut random));
    all_along(checker, &swept(&mut random));
}

/// New commands before, behind and between old ones; alone; and an illegal one last.
fn queues() -> Vec<Vec<Command>> {
    let all = (0x70, 0);
    let some = about(MIDDLE, 1, 0);
    let leaves = about(MIDDLE, 3, 1);
    let none = about(MIDDLE + 0x1000, 1, 0);
    let (stage1, everything, sync) = ((0x10 | 1 << 32, 0), (0x30, 0), (0x1046, 0));
    vec![
        vec![all],
        vec![some],
        vec![some, leaves, all],
        vec![leaves, stage1, some, everything, all, sync],
        vec![stage1, all, everything],
        vec![none, some, sync, stage1],
        vec![sync, all, sync, all],
        vec![some, (0x73 | 1 << 8, 0), all],
        vec![stage1, some, (0x70, 1), all],
        vec![everything, leaves, (0x71, 0)],
        vec![some, stage1, (0x3046, 0)],
    ]
}

/// Regions of several sizes, last-level and not, and rows of two VMIDs.
fn few(commands: &[Command]) -> Work {
    let rows: Vec<Words> = (0..8).map(|vmid| stage1(vmid % 2, vmid)).collect();
    let regions: Vec<Pair> = (0..12)
        .map(|place| region(place % 4, place % 3 != 0, MIDDLE + place * size(0)))
        .collect();
    let mut queue = commands.to_vec();
    queue.resize(8, (0, 0));
    Work {
        kept: with_rows(waiting(3, commands.len() as u64), &rows),
        table: with_regions(&regions),
        queue: bytes(&queue),
        features: ALL,
    }
}

fn stage1(vmid: u64, page: u64) -> Words {
    let reach = Reach {
        kind: STAGE1,
        vmid,
        asid: 0,
        global: false,
        span: 12,
        page: page << 12,
    };
    reach.table()
}

/// A command for each row of both tables, anywhere among those that take nothing: as
/// many stores as a run can make.
fn one_row_each(random: &mut Random) -> Work {
    let rows: Vec<Words> = (0..ROWS).map(|vmid| stage1(vmid, 0)).collect();
    let place = |row: u64| MIDDLE + row * size(2);
    let regions: Vec<Pair> = (0..REGIONS)
        .map(|row| region(row % 3, row % 2 == 0, place(row)))
        .collect();
    let by_vmid = (0..ROWS).map(|vmid| (0x10 | vmid << 32, 0));
    let by_place = (0..REGIONS).map(|row| about(place(row), 2, 0));
    let mut commands: Vec<Command> = by_vmid.chain(by_place).collect();
    commands.resize(SLOTS as usize, (0x1046, 0));
    shuffle(random, &mut commands);
    Work {
        kept: with_rows(waiting(LOG2SIZE, SLOTS), &rows),
        table: with_regions(&regions),
        queue: bytes(&commands),
        features: ALL,
    }
}

/// The same tables, each of them emptied by one command.
fn swept(random: &mut Random) -> Work {
    let work = one_row_each(random);
    let mut commands = vec![(0x1046, 0); SLOTS as usize];
    commands[SLOTS as usize / 3] = (0x70, 0);
    commands[SLOTS as usize / 2] = (0x30, 0);
    Work {
        queue: bytes(&commands),
        ..work
    }
}
