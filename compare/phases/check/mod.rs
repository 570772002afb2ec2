//! The check of a shortened batch (document 02, T-12).
//!
//! Each check that is carried out is asked of the unit's runs, too: the two batches are
//! run on copies, and what comes of that has to be what the check says.

pub mod cases;
mod codes;
mod controls;
mod features;
mod large;
mod lengths;
mod merged;
mod mixes;
mod orders;
mod places;
mod regions;
mod samples;
mod shapes;
mod unfit;

use super::{bytes, from, run};
use crate::call::{Call, Reply, DIFFERS, RAISED, UNQUALIFIED, YES};
use crate::checker::Checker;
use crate::generate::commands::{DPT, FOUR, HYP, RIL};
use crate::limits;

/// Every feature.
const ALL: u64 = FOUR | HYP | RIL | DPT;

pub fn check(checker: &mut Checker) {
    codes::sweeps(checker);
    shapes::sweeps(checker);
    places::sweeps(checker);
    unfit::sweeps(checker);
    lengths::sweeps(checker);
    orders::sweeps(checker);
    merged::sweeps(checker);
    regions::sweeps(checker);
    features::sweeps(checker);
    controls::sweeps(checker);
    mixes::sweeps(checker);
    large::sweeps(checker);
}

/// What a check is asked about: the kept memory and the second table, and features.
#[derive(Clone)]
struct Image {
    kept: Vec<u64>,
    table: Vec<u64>,
    features: u64,
}

fn call<'a>(original: &'a [u8], proposed: &'a [u8], features: u64) -> Call<'a> {
    Call::CheckBatch {
        original,
        proposed,
        features,
    }
}

/// What runs make of a batch: the first command that doesn't qualify, and the rows of both
/// tables, as they leave them.
struct Carried {
    unfit: Option<u64>,
    rows: Vec<[u64; 4]>,
}

/// The batch in the queue of an image whose control word is set up for it, or one part of
/// it after the other if it has more commands than a queue.
fn carried(checker: &mut Checker, image: &Image, batch: &[u8]) -> Carried {
    let Image {
        mut kept,
        mut table,
        features,
    } = image.clone();
    let idle = |slot: &[u8]| matches!(slot[0], 0x01 | 0x02 | 0x46);
    let mut unfit = batch.chunks(16).position(idle).map(|number| number as u64);
    let mut done = 0;
    for part in batch.chunks(limits::bytes(limits::LOG2SIZE)) {
        let count = part.len() as u64 / 16;
        let log2size = count.next_power_of_two().trailing_zeros().into();
        let control = from(log2size, 5 * count % (2 << log2size), count);
        kept[0] = control.pack();
        let mut queue = part.to_vec();
        queue.resize(limits::bytes(log2size), 0);
        let start = 16 * control.slot() as usize;
        queue.rotate_right(start);
        let ran = run(&queue, features, u64::MAX);
        let reply = checker.both(&mut kept, &mut table, ran);
        done += reply.answer[1];
        if reply.answer[0] == RAISED {
            unfit = Some(unfit.map_or(done, |first| first.min(done)));
            break;
        }
    }
    let rows = kept[1..]
        .chunks(4)
        .map(|row| [row[0], row[1], row[2], row[3]]);
    let regions = table.chunks(2).map(|row| [row[0], row[1], 0, 0]);
    let rows = rows.chain(regions).collect();
    Carried { unfit, rows }
}

const RUNS: &str = "a check of a batch says something else than the runs do";

/// A check on a copy. Where it is carried out, it says what the runs do.
fn ask(checker: &mut Checker, image: &Image, original: &[u8], proposed: &[u8]) -> Reply {
    let call = call(original, proposed, image.features);
    let (mut kept, mut table) = (image.kept.clone(), image.table.clone());
    let reply = checker.both(&mut kept, &mut table, call);
    if reply.number != 0 {
        return reply;
    }
    let one = carried(checker, image, original);
    let other = carried(checker, image, proposed);
    let due = match (one.unfit, other.unfit) {
        (Some(number), _) => [UNQUALIFIED, 0, number],
        (None, Some(number)) => [UNQUALIFIED, 1, number],
        (None, None) => {
            let mut rows = one.rows.iter().zip(&other.rows);
            match rows.position(|(one, other)| one != other) {
                Some(row) => [DIFFERS, row as u64, 0],
                None => [YES, 0, 0],
            }
        }
    };
    let met = reply.answer[..3] == due;
    checker.insist(met, RUNS, &image.kept, call, (reply, &kept));
    reply
}

/// The same, which has to be answered with these words.
fn says(
    checker: &mut Checker,
    image: &Image,
    [original, proposed]: [&[u8]; 2],
    [says, word, number]: [u64; 3],
) {
    let reply = ask(checker, image, original, proposed);
    let answer = [says, word, number, 0, 0, 0, 0, 0];
    let met = reply == Reply { number: 0, answer };
    let law = "a check of a batch says something else than T-12 has it";
    let call = call(original, proposed, image.features);
    checker.insist(met, law, &image.kept, call, (reply, &image.kept));
}

/// A check, the other way round, and each batch beside itself: what is said of one is tied
/// to what is said of the others.
fn related(checker: &mut Checker, image: &Image, original: &[u8], proposed: &[u8]) -> Reply {
    let reply = ask(checker, image, original, proposed);
    let turned = ask(checker, image, proposed, original);
    let own = [original, proposed].map(|batch| ask(checker, image, batch, batch));
    if reply.number != 0 {
        return reply;
    }
    let fit = own.map(|own| own.answer == [0; 8]);
    let met = match reply.answer[0] {
        // Whichever batch is searched first, the command is its own.
        UNQUALIFIED => {
            let [one, other] = own.map(|own| own.answer[2]);
            let due = match fit {
                [false, false] => [[0, one], [0, other]],
                [false, true] => [[0, one], [1, one]],
                [true, false] => [[1, other], [0, other]],
                [true, true] => [[2, 2]; 2],
            };
            let told = [reply, turned].map(|reply| [reply.answer[1], reply.answer[2]]);
            told == due && turned.answer[0] == UNQUALIFIED
        }
        _ => turned == reply && fit == [true; 2],
    };
    let law = "a check isn't what it is the other way round and of each batch alone";
    let call = call(original, proposed, image.features);
    checker.insist(met, law, &image.kept, call, (reply, &image.kept));
    reply
}
