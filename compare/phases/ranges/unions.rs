//! A range as the union of its pages, of its halves, and within a longer one.

use super::{bytes, run, waiting};
use super::{insist, taken, SETTINGS};
use crate::checker::Checker;
use crate::generate::commands::{of_code, Command, RANGED};
use crate::generate::images::{table, with_rows};
use crate::generate::random::Random;
use crate::generate::ranges::{any, Range, GRANULES};
use crate::generate::rows::Words;
use crate::generate::world::World;
use crate::limits::ADDRESS;
use crate::model::image::place;
use crate::phases::ranges::mixes;

/// Pages of the ranges that are taken apart.
const PAGES: u64 = 256;

pub fn sweeps(checker: &mut Checker) {
    let mut random = checker.phase("ranges: as the union of their pages");
    for round in 0..3_000 {
        let (rows, command) = scene(&mut random, round);
        let features = random.pick(&SETTINGS);
        let range = short(&mut random);
        paged(checker, &rows, (command, range), features);
    }
    let mut random = checker.phase("ranges: as the union of their halves");
    for round in 0..3_000 {
        let (rows, command) = scene(&mut random, round);
        let features = random.pick(&SETTINGS);
        let range = any(&mut random);
        halved(checker, &rows, (command, range), features);
    }
}

/// Rows and a command by address, from pools of a world, or crowded in one place.
fn scene(random: &mut Random, round: u64) -> (Vec<Words>, Command) {
    let code = random.pick(&RANGED);
    if round % 2 == 0 {
        return mixes::crowd(random, code);
    }
    let world = World::new(random);
    let rows = table(random, &world, 24);
    let (low, high) = of_code(random, &world, code);
    (rows, (low, high))
}

fn short(random: &mut Random) -> Range {
    loop {
        let range = any(random);
        if range.bytes() >> 12 <= PAGES {
            return range;
        }
    }
}

const UNION: &str = "a range isn't the union of its pages";

/// The same rows are left by the command with its range and by one command for each
/// page, up to the end of the space.
fn paged(
    checker: &mut Checker,
    rows: &[Words],
    ((low, high), range): (Command, Range),
    features: u64,
) {
    let granule = 1 << (GRANULES[range.tg as usize] - 12);
    let first = (high >> 12) / granule * granule;
    let last = (first + (range.bytes() >> 12)).min(1 << 52);
    let pages = first..match low & 0xFF {
        0x2A => last.min(ADDRESS >> 12),
        _ => last,
    };
    let mut commands: Vec<Command> = pages.map(|page| (low, page << 12 | high & 1)).collect();
    let count = commands.len() as u64;
    let log2size = u64::from(count.next_power_of_two().trailing_zeros());
    commands.resize(1 << log2size, (0, 0));
    let mut kept = with_rows(waiting(log2size, count), rows);
    let queue = bytes(&commands);
    checker.call(&mut kept, run(&queue, features, u64::MAX));
    let pages = (0..rows.len()).map(|row| rows[row][0] != 0 && kept[place(row)] == 0);
    let command = range.over((low, high));
    let (gone, _) = taken(checker, rows, command, features);
    let met = pages.eq(gone);
    insist(checker, met, UNION, rows, (command, features));
}

const HALVES: &str = "a range isn't the union of its halves";
const LONGER: &str = "a longer range takes less";

/// A range of an even number of granules is that of the first half and that of the
/// second; and twice as long it takes no less.
fn halved(
    checker: &mut Checker,
    rows: &[Words],
    ((low, high), range): (Command, Range),
    features: u64,
) {
    let half = Range {
        num: range.num / 2,
        ttl: 3,
        ..range
    };
    let whole = Range {
        num: 2 * half.num + 1,
        ttl: 3,
        ..range
    };
    let first = high & !0xFFF;
    let middle = u128::from(first) + u128::from(half.bytes());
    let command = whole.over((low, high));
    let (all, _) = taken(checker, rows, command, features);
    let (mut parts, _) = taken(checker, rows, half.over((low, high)), features);
    let less = parts.iter().zip(&all).all(|(part, all)| all >= part);
    let top = if low & 0xFF == 0x2A {
        ADDRESS.into()
    } else {
        1 << 64
    };
    if middle < top {
        let rest = half.over((low, middle as u64 | high & 0xFFF));
        let (second, _) = taken(checker, rows, rest, features);
        parts
            .iter_mut()
            .zip(second)
            .for_each(|(part, other)| *part |= other);
    }
    insist(checker, less, LONGER, rows, (command, features));
    insist(checker, parts == all, HALVES, rows, (command, features));
}
