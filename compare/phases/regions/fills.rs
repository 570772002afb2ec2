//! Fills of the second table: every allowance, called again, and beside anything.

use super::{at, bytes, fill, run, size, waiting, ALL, MIDDLE, ROW_CODES};
use crate::call::Call;
use crate::checker::Checker;
use crate::generate::images::{image, with_rows};
use crate::generate::random::Random;
use crate::generate::regions::{self, about, any_fill, any_region, with_regions, Pair};
use crate::generate::rows::cd;
use crate::generate::world::World;
use crate::limits::ADDRESS;

pub fn sweeps(checker: &mut Checker) {
    checker.phase("regions: a fill at every allowance, and called again");
    for code in 0..ROW_CODES {
        for words in at(code, &[Some(0), Some(MIDDLE), Some(ADDRESS - size(code))]) {
            repeated(checker, words);
        }
    }
    checker.phase("regions: a fill that doubles a row is none to refuse");
    doubles(checker);
    let mut random = checker.phase("regions: fills of any table beside any memory");
    for _ in 0..6_000 {
        any(checker, &mut random);
    }
    let mut random = checker.phase("regions: fills and runs in turns");
    for _ in 0..400 {
        turns(checker, &mut random);
    }
}

const LAW: &str = "a fill of the table called again isn't what T-11 has";

/// Any two allowances one after the other, then enough, then once more: the row is
/// empty until word 0 is stored, and then in use.
fn repeated(checker: &mut Checker, words: Pair) {
    let before = with_rows(waiting(0, 1), &[cd(1, 2, 3)]);
    let allowances = [0, 1, 2, 3, 1 << 32, 1 << 32 | 1, 1 << 63, u64::MAX];
    for first in allowances {
        for second in allowances {
            let mut kept = before.clone();
            let mut table = vec![0, !words[1], 0, words[1], words[0], words[1]];
            let mut full = false;
            for allowance in [first, second, 2, 0] {
                let call = fill(0, words, allowance);
                let reply = checker.both(&mut kept, &mut table, call);
                let [end, stores, ..] = reply.answer;
                let right = match (full, allowance) {
                    (true, _) => reply.number == 8,
                    (false, 0) => (reply.number, end, stores) == (0, 1, 0),
                    (false, 1) => (reply.number, end, stores) == (0, 1, 1),
                    (false, _) => (reply.number, end, stores) == (0, 0, 2),
                };
                full |= allowance >= 2;
                let stands = table[0] == if full { words[0] } else { 0 };
                checker.insist(right && stands, LAW, &before, call, (reply, &kept));
            }
        }
    }
}

/// The same region, one within another, and one around it, last-level or not: all of
/// them stand beside each other.
fn doubles(checker: &mut Checker) {
    let before = with_rows(waiting(0, 0), &[[0; 4]]);
    for code in 0..ROW_CODES {
        for old in at(code, &[Some(MIDDLE)]) {
            for other in 0..ROW_CODES {
                for new in at(other, &[Some(MIDDLE), Some(MIDDLE + size(code) - 1)]) {
                    let (mut kept, mut table) = (before.clone(), with_regions(&[old, [0, 0]]));
                    let call = fill(1, new, 2);
                    let reply = checker.both(&mut kept, &mut table, call);
                    let met = reply.number == 0 && table == [old, new].concat();
                    checker.insist(met, LAW, &before, call, (reply, &kept));
                }
            }
        }
    }
}

fn any(checker: &mut Checker, random: &mut Random) {
    let world = World::new(random);
    let mut kept = image(random, &world);
    let mut table = regions::table(random, &world);
    if random.once_in(6) {
        regions::damage(random, &mut table);
    }
    for _ in 0..3 {
        let (row, words, allowance) = any_fill(random, &world, &table);
        checker.both(&mut kept, &mut table, fill(row, words, allowance));
    }
}

/// Rows are filled, cut or not, and removed by a run, and filled again. What a cut fill
/// left of a base is no row to a run.
fn turns(checker: &mut Checker, random: &mut Random) {
    let world = World::new(random);
    let mut table = vec![0; 8];
    for _ in 0..12 {
        let mut kept = with_rows(waiting(1, 2), &[[0; 4]]);
        let words = any_region(random, &world);
        let row = random.below(4);
        let allowance = random.pick(&[0, 1, 1, 2, 2, 2]);
        checker.both(&mut kept, &mut table, fill(row, words, allowance));
        if random.once_in(2) {
            let [word, base] = words;
            let command = about(base, word >> 2 & 15, random.below(2));
            let queue = bytes(&[command, random.pick(&[(0x46, 0), (0x30, 0), (0x70, 0)])]);
            let call: Call = run(&queue, ALL, random.pick(&[1, 2, 3, u64::MAX]));
            checker.both(&mut kept, &mut table, call);
        }
    }
}
