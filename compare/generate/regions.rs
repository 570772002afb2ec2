//! Regions for the second table, and commands about them (document 02, T-11).

use super::commands::Command;
use super::images::shuffle;
use super::random::Random;
use super::world::World;
use crate::limits::{table_words, ADDRESS, REGIONS};

/// The sizes by their code, as powers of two.
pub const SIZES: [u64; 10] = [12, 14, 16, 21, 25, 29, 30, 34, 36, 39];

pub type Pair = [u64; 2];

const VALID: u64 = 1;
pub const LAST: u64 = 1 << 1;

/// The row of the size code around an address.
pub fn region(code: u64, last: bool, address: u64) -> Pair {
    let size = SIZES[code as usize];
    let word = VALID | u64::from(last) * LAST | code << 2;
    [word, address >> size << size]
}

/// One empty row, for runs that nothing of the table is about.
pub fn empty() -> Vec<u64> {
    vec![0, 0]
}

/// Rows as the words of a table.
pub fn with_regions(rows: &[Pair]) -> Vec<u64> {
    rows.concat()
}

/// Code 73 for the address, of which bits 55:12 are taken, SIZE and Leaf.
pub fn about(address: u64, size: u64, leaf: u64) -> Command {
    let field = address << 8 >> 20 << 12;
    (0x73, field | size << 8 | leaf)
}

/// A page of the pools, now and then its neighbour, in the 52 bits of an output.
fn place(random: &mut Random, world: &World) -> u64 {
    let further = random.pick(&[0, 0, 0, 1 << 12, 1 << 14, 1 << 21, 1 << 30]);
    (world.page(random) + further) % ADDRESS
}

/// Sizes that meet often, and now and then any.
fn any_code(random: &mut Random) -> u64 {
    let any = random.below(SIZES.len() as u64);
    random.pick(&[0, 0, 1, 3, 6, any])
}

pub fn any_region(random: &mut Random, world: &World) -> Pair {
    let (code, last) = (any_code(random), !random.once_in(3));
    region(code, last, place(random, world))
}

/// An empty row whose base looks like what once stood there.
fn leftover(random: &mut Random, world: &World) -> Pair {
    let [_, base] = any_region(random, world);
    [0, base ^ random.pick(&[0, 0, 1, u64::MAX])]
}

/// An accepted table, mostly small.
pub fn table(random: &mut Random, world: &World) -> Vec<u64> {
    let limit = random.pick(&[1, 2, 4, 4, 8, 16, REGIONS]);
    let count = random.between(1, limit);
    let row = |random: &mut Random| match random.below(6) {
        0 => leftover(random, world),
        _ => any_region(random, world),
    };
    let mut rows: Vec<Pair> = (0..count).map(|_| row(random)).collect();
    shuffle(random, &mut rows);
    with_regions(&rows)
}

/// Code 73 about a page of the pools: mostly aligned to a size that rows have.
pub fn any_about(random: &mut Random, world: &World) -> Command {
    let code = any_code(random);
    let (above, bit) = (random.next() << 52, random.between(12, 51));
    let address = place(random, world) >> SIZES[code as usize] << SIZES[code as usize];
    let (address, size) = match random.below(12) {
        0 => (address ^ 1 << bit, code),
        1 => (address | above, code),
        2 => (address, random.below(16)),
        3 => (place(random, world), code),
        _ => (address, code),
    };
    about(address, size, random.below(2))
}

/// Makes a table's length wrong, or a row of it ill formed; some stay as they were.
pub fn damage(random: &mut Random, table: &mut Vec<u64>) {
    let row = 2 * random.below(table.len() as u64 / 2) as usize;
    match random.below(10) {
        0 => table.truncate(table.len() - random.pick(&[1, 1, 2])),
        1 => table.resize(table.len() + random.pick(&[1, 1, 2, 3]), 0),
        2 => table.resize(table_words(REGIONS) + random.between(1, 4) as usize, 0),
        3 | 4 => table[row] ^= 1 << random.below(64),
        5 => table[row] = table[row] & !(15 << 2) | random.between(10, 15) << 2,
        6 => table[row] ^= 1,
        7 => table[row + 1] ^= 1 << random.below(64),
        8 => table[row + 1] ^= 1 << random.between(11, 40),
        _ => table[row] = random.next(),
    }
}

/// A row to be filled in, at a number near the table, and with which allowance: the
/// words are mostly well formed.
pub fn any_fill(random: &mut Random, world: &World, table: &[u64]) -> (u64, Pair, u64) {
    let rows = table.len() as u64 / 2;
    let empty: Vec<u64> = (0..rows)
        .filter(|&row| table[2 * row as usize] == 0)
        .collect();
    let row = match random.below(10) {
        0..=6 if !empty.is_empty() => random.pick(&empty),
        0..=8 => random.below(rows + 1),
        _ => random.pick(&[rows, rows + 1, REGIONS, 1 << 32, 1 << 63, u64::MAX]),
    };
    let mut words = any_region(random, world);
    match random.below(10) {
        0 => words = leftover(random, world),
        1 => words[random.below(2) as usize] ^= 1 << random.below(64),
        2 => words[0] = words[0] & !(15 << 2) | random.between(10, 15) << 2,
        3 => words[1] |= 1 << random.between(52, 63),
        _ => (),
    }
    let large = random.next() << 32 | random.below(2);
    let allowance = random.pick(&[0, 1, 1, 2, 2, 3, 4, u64::MAX, large]);
    (row, words, allowance)
}
