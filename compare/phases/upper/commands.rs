//! Commands by address at the edges: 12 and 13 compare all 64 bits, 2A has 52.

use super::{any_half, bytes, first, in_neither, inside, run, second, waiting};
use super::{ALL, ASID, ENDS, VMID};
use crate::checker::Checker;
use crate::generate::commands::Command;
use crate::generate::images::with_rows;
use crate::generate::regions::empty;
use crate::generate::rows::{Reach, Words};
use crate::limits::{ADDRESS, SPANS, UPPER};
use crate::phases::cuts::{every_cut, Work};

/// Any of the whole commands that remove stage rows.
const SWEEPING: [Command; 4] = [
    (0x10 | VMID << 32, 0),
    (0x11 | VMID << 32 | ASID << 48, 0),
    (0x28 | VMID << 32, 0),
    (0x30, 0),
];

pub fn sweeps(checker: &mut Checker) {
    checker.phase("upper half: commands at the edges of every span");
    for span in SPANS {
        for page in inside(span) {
            around(checker, span, page);
        }
    }
    checker.phase("upper half: commands with every value of bits 63:52");
    for span in ENDS {
        let rows = [0, UPPER].map(|half| first(span, half).page(0, 0));
        for address in any_half(0) {
            for (low, high) in by_address(address, 0) {
                one(checker, &rows, (low, high));
            }
        }
    }
    checker.phase("upper half: runs cut at every store");
    for (span, page) in ENDS
        .into_iter()
        .flat_map(|span| inside(span).map(|page| (span, page)))
    {
        cut(checker, span, page);
    }
}

fn one(checker: &mut Checker, rows: &[Words], command: Command) {
    let mut kept = with_rows(waiting(0, 1), rows);
    checker.call(&mut kept, run(&bytes(&[command]), ALL, u64::MAX));
}

/// 12 and 13 with the whole address; 2A with what it has of it, and with all of
/// it, which is illegal above 2^52.
fn by_address(address: u64, leaf: u64) -> [Command; 4] {
    let page = address >> 12 << 12 | leaf;
    let vmid = VMID << 32;
    [
        (0x12 | vmid | ASID << 48, page),
        (0x13 | vmid, page),
        (0x2A | vmid, page % ADDRESS),
        (0x2A | vmid, page),
    ]
}

/// Rows at the page: both levels, another ASID, global, another VMID; the same
/// place in the other half, its neighbours, and stage 2.
fn rows_at(span: u64, page: u64) -> Vec<Words> {
    let own = first(span, page);
    let (vmid, asid) = (VMID + 1, ASID + 1);
    let global = Reach {
        asid,
        global: true,
        ..own
    };
    let mirrored = first(span, page ^ UPPER);
    let below = page.wrapping_sub(1 << span);
    let above = page.wrapping_add(1 << span);
    let beside = [below, above]
        .into_iter()
        .filter(|page| inside(span).contains(page));
    let mut rows = vec![own.page(0, 0), own.table()];
    rows.push(Reach { asid, ..own }.page(0, 0));
    rows.extend([global.page(0, 0), global.table()]);
    rows.push(Reach { vmid, ..own }.page(0, 0));
    rows.extend([mirrored.page(0, 0), mirrored.table()]);
    rows.extend(beside.map(|page| first(span, page).page(0, 0)));
    rows.extend([second(span, page).page(0, 0), second(span, page).table()]);
    rows
}

/// Each command at the first and last page of the row, in its middle, just outside,
/// in the other half and in neither.
fn around(checker: &mut Checker, span: u64, page: u64) {
    let rows = rows_at(span, page);
    let last = page + ((1 << span) - 1);
    let near = [
        page,
        last,
        page + (1 << (span - 1)),
        page.wrapping_sub(1),
        last.wrapping_add(1),
        page ^ UPPER,
        last ^ UPPER,
    ];
    for (address, leaf) in near.into_iter().flat_map(|near| [(near, 0), (near, 1)]) {
        for command in by_address(address, leaf) {
            one(checker, &rows, command);
        }
    }
    for address in in_neither(page) {
        for command in by_address(address, 0) {
            one(checker, &rows, command);
        }
    }
    for command in SWEEPING {
        one(checker, &rows, command);
    }
}

/// 2A, 12 and 13 one after the other.
fn cut(checker: &mut Checker, span: u64, page: u64) {
    let [by_asid, by_page, by_stage2, _] = by_address(page, 0);
    let work = Work {
        kept: with_rows(waiting(2, 3), &rows_at(span, page)),
        table: empty(),
        queue: bytes(&[by_stage2, by_asid, by_page, (0x46, 0)]),
        features: ALL,
    };
    every_cut(checker, &work);
}
