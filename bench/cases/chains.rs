//! A table of streams, each with its STE, CD, stage 1 and stage 2 row.

use super::{memory, Case, Lent, Per, Size, Work, GUEST_FEATURES};
use super::{STAGE1_PAYLOAD, STAGE2_PAYLOAD, STE_PAYLOAD};
use crate::call::Asked;
use crate::model::run::End;
use crate::rows::{cd, ste, Reach, Words, STAGE1, STAGE2};

fn chains(size: Size) -> u64 {
    size.rows as u64 / 4
}

fn stream(number: u64) -> u64 {
    8 * number
}

fn page(number: u64) -> u64 {
    (number + 1) << 12
}

/// Config 7, so that a transaction goes through all four rows.
fn chain(number: u64) -> [Words; 4] {
    let id = number + 1;
    let first = Reach {
        kind: STAGE1,
        vmid: id,
        asid: id,
        global: false,
        span: 12,
        page: page(number),
    };
    let middle = id << 21;
    let second = Reach {
        kind: STAGE2,
        span: 21,
        page: middle,
        ..first
    };
    [
        ste(stream(number), id, 7, STE_PAYLOAD),
        cd(stream(number), 0, id),
        first.page(middle, STAGE1_PAYLOAD),
        second.page(id << 30, STAGE2_PAYLOAD),
    ]
}

fn rows(size: Size) -> Vec<Words> {
    (0..chains(size)).flat_map(chain).collect()
}

/// A run with the queue off: nothing but the check that every call starts with.
pub fn check(letter: &'static str, what: &'static str, size: Size) -> Case {
    Case {
        letter,
        what,
        size,
        lent: Lent::without_regions(memory(size, 0, &rows(size))),
        work: Work::Runs {
            queues: vec![vec![0; 16 * size.commands()]],
            features: GUEST_FEATURES,
        },
        per: Per::Call,
        end: End::Off as u64,
        removes: None,
    }
}

/// The last stream's rows stand last, so that each search goes through the table.
pub fn transaction(letter: &'static str, what: &'static str, size: Size) -> Case {
    let last = chains(size) - 1;
    Case {
        letter,
        what,
        size,
        lent: Lent::without_regions(memory(size, 0, &rows(size))),
        work: Work::Translate(Asked {
            stream: stream(last) as u32,
            substream: 0,
            address: page(last) + 0x123,
            how: 0,
            memattr: 15,
            sh: 3,
            hints: 0o33,
        }),
        per: Per::Call,
        end: 0,
        removes: None,
    }
}
