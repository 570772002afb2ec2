//! Pairs of batches by what the proposal is to the original, and what was said of them.

use super::{add, heads, line, Asked};
use crate::call::{Reply, DIFFERS, UNQUALIFIED, YES};
use crate::tally::Table;

const SAYS: [&str; 5] = ["yes", "original", "proposed", "row", "region"];
/// No commands at all, none in one of the batches; the same bytes; the same commands in
/// another order; with more or fewer repetitions; only some of them; all of them and more;
/// others, fewer, as many, more.
const PAIRS: [&str; 10] = [
    "both empty",
    "orig. empty",
    "prop. empty",
    "the same",
    "in order",
    "repeated",
    "some left out",
    "some more",
    "fewer others",
    "other others",
];
/// What can't be said of a pair: of the same commands the original is named, and no row.
const NEVER: [&[&str]; PAIRS.len()] = [
    &["original", "proposed", "row", "region"],
    &["original"],
    &["proposed"],
    &["proposed", "row", "region"],
    &["proposed", "row", "region"],
    &["proposed", "row", "region"],
    &["proposed"],
    &[],
    &[],
    &[],
];

#[derive(Default)]
pub struct Pairs {
    counts: [[u64; SAYS.len()]; PAIRS.len()],
}

/// The commands in an order of their own, and the different ones.
fn sorted(batch: &[u8]) -> (Vec<&[u8]>, Vec<&[u8]>) {
    let mut all: Vec<&[u8]> = batch.chunks(16).collect();
    all.sort();
    let mut once = all.clone();
    once.dedup();
    (all, once)
}

fn ways(asked: Asked) -> [bool; PAIRS.len()] {
    let [one, other] = asked.batches;
    let empty = one.is_empty() || other.is_empty();
    let ((one_all, one_once), (other_all, other_once)) = (sorted(one), sorted(other));
    let within = |some: &[&[u8]], all: &[&[u8]]| {
        let found = |command: &&[u8]| all.binary_search(command).is_ok();
        some.iter().all(found)
    };
    let (fewer, more) = (
        within(&other_once, &one_once),
        within(&one_once, &other_once),
    );
    let alike = fewer || more;
    [
        one.is_empty() && other.is_empty(),
        one.is_empty() && !other.is_empty(),
        !one.is_empty() && other.is_empty(),
        !empty && one == other,
        !empty && one != other && one_all == other_all,
        !empty && one_all != other_all && one_once == other_once,
        !empty && fewer && !more,
        !empty && more && !fewer,
        !empty && !alike && other.len() < one.len(),
        !empty && !alike && other.len() >= one.len(),
    ]
}

impl Pairs {
    pub fn count(&mut self, asked: Asked, (kept, _): (&[u64], &[u64]), reply: &Reply) {
        let rows = kept.len() as u64 / 4;
        let [says, word, ..] = reply.answer;
        let said = [
            says == YES,
            (says, word) == (UNQUALIFIED, 0),
            (says, word) == (UNQUALIFIED, 1),
            says == DIFFERS && word < rows,
            says == DIFFERS && word >= rows,
        ];
        for (counts, way) in self.counts.iter_mut().zip(ways(asked)) {
            if way {
                add(counts, said);
            }
        }
    }

    pub fn print(&self, table: &mut Table) {
        heads("Batches", &SAYS);
        for ((name, counts), never) in PAIRS.iter().zip(&self.counts).zip(NEVER) {
            let counts = counts.iter().zip(SAYS);
            line(
                table,
                name,
                counts.map(|(&count, said)| (count, !never.contains(&said))),
            );
        }
    }
}
