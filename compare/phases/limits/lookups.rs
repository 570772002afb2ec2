//! A row that answers a step of a transaction, at the last place and elsewhere.

use super::{asked, chain, first, places, sizes, table, waiting};
use super::{ASID, AS_IT_COMES, MIDDLE, OUTPUT, STAGE1_PAYLOAD, STREAM, SUBSTREAM, VMID};
use crate::call::Call;
use crate::checker::Checker;
use crate::generate::images::with_rows;
use crate::generate::rows::{cd, ste, Reach, Words};
use crate::limits::ROWS;

pub fn sweeps(checker: &mut Checker) {
    checker.phase("limits: a row that answers");
    for rows in 1..=ROWS {
        alone(checker, rows, rows - 1);
    }
    for rows in sizes() {
        for place in places(rows) {
            alone(checker, rows, place);
            global(checker, rows, place);
            for (config, step) in (5..8).flat_map(|config| (0..4).map(move |step| (config, step))) {
                with_others(checker, rows, place, config, step);
            }
        }
    }
}

fn ask(checker: &mut Checker, rows: &[Words]) {
    let mut kept = with_rows(waiting(0, 0), rows);
    checker.call(&mut kept, Call::Translate(asked()));
}

/// For each step, a row in the place of the one that should answer, which makes
/// the outcome another.
fn rivals(config: u64) -> [Words; 4] {
    let [_, _, _, [word, one, input, _]] = chain(config);
    [
        ste(STREAM, VMID, 0, AS_IT_COMES),
        cd(STREAM, SUBSTREAM, ASID + 1),
        first().page(MIDDLE + 0x1000, STAGE1_PAYLOAD),
        [word, one, input, OUTPUT + 0x1000],
    ]
}

/// A row that needs no other.
fn alone(checker: &mut Checker, rows: u64, place: u64) {
    for config in [0, 4] {
        let row = ste(STREAM, VMID, config, AS_IT_COMES);
        ask(checker, &table(rows, &[(place, row)]));
    }
}

/// A stage 1 row that is global and of another ASID.
fn global(checker: &mut Checker, rows: u64, place: u64) {
    let [ste, cd, ..] = chain(5);
    let global = Reach {
        global: true,
        asid: ASID + 1,
        ..first()
    };
    let page = global.page(OUTPUT, STAGE1_PAYLOAD);
    let own = [(rows / 2, ste), (rows / 3, cd), (place, page)];
    ask(checker, &table(rows, &own));
}

/// The row of a step at a place, those of the other steps elsewhere; then also a
/// rival at the last place, and then with the two exchanged.
fn with_others(checker: &mut Checker, rows: u64, place: u64, config: u64, step: usize) {
    let (own, rival) = (chain(config)[step], rivals(config)[step]);
    let last = rows - 1;
    let free = (0..rows).filter(|&free| free != place && free != last);
    let others = (0..4).filter(|&other| other != step);
    let mut chained: Vec<_> = free.zip(others.map(|other| chain(config)[other])).collect();
    chained.push((place, own));
    ask(checker, &table(rows, &chained));
    if place != last {
        chained.push((last, rival));
        ask(checker, &table(rows, &chained));
        chained.extend([(place, rival), (last, own)]);
        ask(checker, &table(rows, &chained));
    }
}
