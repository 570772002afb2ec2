//! Transactions at the edges of stage 1 rows, through every Config.

use super::{any_half, first, in_neither, inside, second, waiting, ASID, ENDS, VMID};
use crate::call::{Asked, Call};
use crate::checker::Checker;
use crate::generate::images::with_rows;
use crate::generate::rows::{cd, ste, Reach, Words};
use crate::limits::{ADDRESS, SPANS, UPPER};

/// SHCFG 1: the shareability stays as it comes in.
const AS_IT_COMES: u64 = 1 << 5;
const WRITE_BACK: u64 = 15;

pub fn sweeps(checker: &mut Checker) {
    checker.phase("upper half: transactions at the edges of every span");
    for span in SPANS {
        for page in inside(span) {
            around(checker, span, page);
        }
    }
    checker.phase("upper half: transactions with every value of bits 63:52");
    for span in ENDS {
        let mut rows = streams();
        rows.push(first(span, UPPER).page(0, WRITE_BACK));
        rows.push(first(span, 0).page(1 << span, WRITE_BACK));
        for address in any_half(0x234) {
            ask(checker, &rows, 5, address);
        }
    }
}

/// An STE and a CD row for each Config; stream n goes through Config n.
fn streams() -> Vec<Words> {
    let ste = |config| ste(config, VMID, config, AS_IT_COMES);
    let rows = (4..8).map(ste);
    rows.chain((4..8).map(|config| cd(config, 0, ASID)))
        .collect()
}

fn ask(checker: &mut Checker, rows: &[Words], config: u32, address: u64) {
    let mut kept = with_rows(waiting(0, 0), rows);
    let asked = Asked {
        stream: config,
        substream: 0,
        address,
        how: 0,
        memattr: WRITE_BACK,
        sh: 0,
        hints: 0o33,
    };
    checker.call(&mut kept, Call::Translate(asked));
}

/// The row alone, with stage 2 rows for it and for its input; and then among
/// others: its counterpart in the other half, its neighbours, those at its place
/// that are not last-level or of another ASID, and a global one that comes later.
fn around(checker: &mut Checker, span: u64, page: u64) {
    let own = first(span, page);
    let output = 6 << span;
    let mut alone = streams();
    alone.push(own.page(output, WRITE_BACK));
    alone.push(second(span, output).page(2 << span, WRITE_BACK));
    alone.push(second(span, page).page(4 << span, WRITE_BACK));
    each(checker, &alone, span, page);

    let (below, above) = (page.wrapping_sub(1 << span), page.wrapping_add(1 << span));
    let beside = [below, above, page ^ UPPER];
    let known = beside
        .into_iter()
        .filter(|page| page % ADDRESS == *page || *page >= UPPER);
    let others = known
        .zip(7..)
        .map(|(page, output): (u64, u64)| first(span, page).page(output << span, WRITE_BACK));
    let asid = ASID + 1;
    let global = Reach {
        asid,
        global: true,
        ..own
    };
    let mut rows = vec![own.table(), Reach { asid, ..own }.page(0, WRITE_BACK)];
    rows.extend(others);
    rows.extend(alone);
    rows.push(global.page(3 << span, WRITE_BACK));
    each(checker, &rows, span, page);
}

/// The first and last byte, the middle, just outside, in the other half and in
/// neither.
fn each(checker: &mut Checker, rows: &[Words], span: u64, page: u64) {
    let last = page + ((1 << span) - 1);
    let near = [
        page,
        last,
        page + (1 << (span - 1)),
        page.wrapping_sub(1),
        last.wrapping_add(1),
        page ^ UPPER,
        last ^ UPPER,
    ];
    for (address, config) in near
        .into_iter()
        .flat_map(|near| (4..8).map(move |config| (near, config)))
    {
        ask(checker, rows, config, address);
    }
    for address in in_neither(page).chain(in_neither(last)) {
        ask(checker, rows, 5, address);
    }
}
