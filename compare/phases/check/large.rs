//! The largest tables, and batches of as many commands as the largest queue holds and of
//! more.

use super::samples::{control, idle, own};
use super::{ask, bytes, says, Image, ALL};
use crate::call::{DIFFERS, UNQUALIFIED, YES};
use crate::checker::Checker;
use crate::generate::commands::{Command, E2H};
use crate::generate::images::{shuffle, with_rows};
use crate::generate::random::Random;
use crate::generate::regions::{about, region, with_regions, Pair};
use crate::generate::rows::{cd, cd_table, Reach, Words, STAGE1, STAGE2};
use crate::limits::{REGIONS, ROWS, SLOTS};

pub fn sweeps(checker: &mut Checker) {
    let mut random = checker.phase("check: as many commands as fit over as many rows as fit");
    let image = full(&mut random);
    largest(checker, &mut random, &image);
    checker.phase("check: more commands than a queue holds");
    for count in [SLOTS - 1, SLOTS, SLOTS + 1, 1 << 16 | 1] {
        long(checker, count as usize);
    }
}

const PAGE: u64 = 0x1000;

/// Pages of few VMIDs and ASIDs, in the order of their addresses in either stage.
fn row(random: &mut Random, place: u64) -> Words {
    let reach = Reach {
        kind: [STAGE1, STAGE2][place as usize % 2],
        vmid: place % 3,
        asid: place / 2 % 4,
        global: place % 31 == 0,
        span: random.pick(&[12, 12, 12, 14]),
        page: place * 4 * PAGE,
    };
    match random.below(6) {
        0 => reach.table(),
        _ => reach.page(place * 4 * PAGE, 15),
    }
}

fn full(random: &mut Random) -> Image {
    let rows: Vec<Words> = (0..ROWS).map(|place| row(random, place)).collect();
    let regions: Vec<Pair> = (0..REGIONS)
        .map(|place| region(place % 3, place % 4 > 0, place << 20))
        .collect();
    Image {
        kept: with_rows(control(2), &rows),
        table: with_regions(&regions),
        features: ALL | E2H,
    }
}

/// A command for the row at a place of either table, which takes it and few others.
fn taking(place: u64) -> Command {
    let (vmid, asid) = (place % 3 << 32, place / 2 % 4 << 48);
    match place.checked_sub(ROWS) {
        Some(region) => about(region << 20, 2, 0),
        None if place % 2 == 0 => (0x12 | vmid | asid, place * 4 * PAGE),
        None => (0x2A | vmid, place * 4 * PAGE),
    }
}

/// Each row is taken by some command of the original, most by several; the proposal is the
/// original in another order, then without the commands for one row.
fn largest(checker: &mut Checker, random: &mut Random, image: &Image) {
    let all = ROWS + REGIONS;
    let mut commands: Vec<Command> = (0..SLOTS).map(|number| taking(number % all)).collect();
    let original = bytes(&commands);
    shuffle(random, &mut commands);
    says(checker, image, [&original, &bytes(&commands)], [YES, 0, 0]);
    for spared in [0, 1, 499, ROWS - 1, ROWS, all - 1] {
        let own = taking(spared);
        let mut fewer: Vec<Command> = commands
            .iter()
            .map(|&command| if command == own { idle(0x03) } else { command })
            .collect();
        says(
            checker,
            image,
            [&original, &bytes(&fewer)],
            [DIFFERS, spared, 0],
        );
        fewer.retain(|&command| command != idle(0x03));
        says(
            checker,
            image,
            [&original, &bytes(&fewer)],
            [DIFFERS, spared, 0],
        );
    }
    let mut unfit = commands.clone();
    unfit[SLOTS as usize - 1] = (0x46, 0);
    let (last, unfit) = (SLOTS - 1, bytes(&unfit));
    says(checker, image, [&unfit, &original], [UNQUALIFIED, 0, last]);
    says(checker, image, [&original, &unfit], [UNQUALIFIED, 1, last]);
    let whole = bytes(&[(0x30, 0), (0x70, 0)]);
    says(checker, image, [&original, &whole], [YES, 0, 0]);
    ask(checker, image, &whole, &[]);
}

/// One row, which the last command takes, or no command, or which goes first; and a last
/// command that doesn't qualify.
fn long(checker: &mut Checker, count: usize) {
    let stream = 0x77;
    for kept in [
        with_rows(control(1), &[cd_table(stream)]),
        with_rows(control(4), &[[0; 4], cd(stream, 5, 9)]),
    ] {
        let last = kept.len() as u64 / 4 - 1;
        let image = Image {
            kept,
            table: vec![0, 0],
            features: ALL,
        };
        let none = bytes(&vec![idle(0x03); count]);
        let with = |place: usize, command: Command| {
            let mut batch = vec![idle(0x03); count];
            batch[place] = command;
            bytes(&batch)
        };
        let one = bytes(&[own(0x06)]);
        for place in [0, count / 2, count - 1] {
            let own = with(place, own(0x06));
            says(checker, &image, [&own, &none], [DIFFERS, last, 0]);
            says(checker, &image, [&none, &own], [DIFFERS, last, 0]);
            says(checker, &image, [&own, &one], [YES, 0, 0]);
            says(checker, &image, [&one, &own], [YES, 0, 0]);
            let unfit = with(place, (0x46, 0));
            let number = place as u64;
            says(checker, &image, [&unfit, &none], [UNQUALIFIED, 0, number]);
            says(checker, &image, [&one, &unfit], [UNQUALIFIED, 1, number]);
        }
    }
}
