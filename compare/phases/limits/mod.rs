//! Both sides of every limit (compare/limits.rs), leaving nothing to chance.

pub mod identifiers;
mod lengths;
mod lookups;
mod numbers;
mod queues;
mod scopes;
mod tables;

use super::{bytes, waiting};
use crate::call::{Asked, Call};
use crate::checker::Checker;
use crate::generate::fields::with;
use crate::generate::rows::{cd, cd_table, ste, Reach, Words, STAGE1, STAGE2};
use crate::limits::ROWS;

/// S1P, S2P, ASID16, VMID16.
const ALL: u64 = 0b1111;

pub fn limits(checker: &mut Checker) {
    numbers::sweeps(checker);
    identifiers::sweeps(checker);
    lookups::sweeps(checker);
    scopes::sweeps(checker);
    tables::sweeps(checker);
    queues::sweeps(checker);
    lengths::sweeps(checker);
}

const STREAM: u64 = 0x77;
const SUBSTREAM: u64 = 5;
const VMID: u64 = 3;
const ASID: u64 = 9;
const PAGE: u64 = 0x1000;
const MIDDLE: u64 = 0x8000;
const OUTPUT: u64 = 0xC000;
/// A region of the second table, of 4KB and not last-level.
const VALID: u64 = 1;
const REGION: u64 = 0x7000;

/// SHCFG 1: the shareability stays as it comes in.
const AS_IT_COMES: u64 = 1 << 5;
/// WB in both halves, NSH; stage 1 with hints RA and WA.
const WRITE_BACK: u64 = 15;
const STAGE1_PAYLOAD: u64 = WRITE_BACK | 0o33 << 6;

/// The stream of rows that no transaction and no command is about.
const BYSTANDER: u64 = 0xFFFF_0000;

fn first() -> Reach {
    Reach {
        kind: STAGE1,
        vmid: VMID,
        asid: ASID,
        global: false,
        span: 12,
        page: PAGE,
    }
}

fn second(page: u64) -> Reach {
    Reach {
        kind: STAGE2,
        page,
        ..first()
    }
}

/// The four rows of a transaction, in the order of its steps.
fn chain(config: u64) -> [Words; 4] {
    let middle = if config == 6 { PAGE } else { MIDDLE };
    [
        ste(STREAM, VMID, config, AS_IT_COMES),
        cd(STREAM, SUBSTREAM, ASID),
        first().page(MIDDLE, STAGE1_PAYLOAD),
        second(middle).page(OUTPUT, WRITE_BACK),
    ]
}

/// A transaction through that chain. No two of its numbers are equal.
fn asked() -> Asked {
    Asked {
        stream: STREAM as u32,
        substream: SUBSTREAM as u32,
        address: PAGE + 0x234,
        how: 6,
        memattr: 11,
        sh: 3,
        hints: 0o35,
    }
}

/// A full table of bystanders, but for the rows given with their places.
pub fn table(rows: u64, own: &[(u64, Words)]) -> Vec<Words> {
    let mut table = vec![cd_table(BYSTANDER); rows as usize];
    for &(place, row) in own {
        table[place as usize] = row;
    }
    table
}

/// Sizes of tables: the least and the largest, and both sides of powers of two.
pub fn sizes() -> Vec<u64> {
    places(ROWS).into_iter().map(|place| place + 1).collect()
}

/// Places in a table: its ends, and both sides of powers of two.
pub fn places(rows: u64) -> Vec<u64> {
    let powers = (0..63).map(|bit| 1 << bit);
    let within = powers.take_while(|&power| power < rows);
    let mut places: Vec<u64> = within.flat_map(|power| [power - 1, power]).collect();
    places.extend([rows.saturating_sub(2), rows - 1]);
    places.sort();
    places.dedup();
    places
}

/// The batch beside itself.
fn check(batch: &[u8]) -> Call<'_> {
    Call::CheckBatch {
        original: batch,
        proposed: batch,
        features: ALL,
    }
}

/// Every call once, as an accepted memory would take it.
pub fn every_call(checker: &mut Checker, kept: &[u64], queue: &[u8]) {
    let run = Call::Run {
        queue,
        features: ALL,
        allowance: u64::MAX,
    };
    let fill = Call::Fill {
        row: 0,
        words: cd(STREAM, SUBSTREAM, ASID),
        allowance: u64::MAX,
    };
    let table_fill = Call::TableFill {
        row: 0,
        words: [VALID, REGION],
        allowance: u64::MAX,
    };
    let wr = kept.first().map_or(0, |word| word >> 20 & 0xF_FFFF);
    let calls = [
        run,
        fill,
        Call::Doorbell { wr },
        Call::Acknowledge,
        Call::Enable { on: 1 },
        Call::Translate(asked()),
        Call::State,
        Call::ClearPending,
        table_fill,
        check(&queue[..0]),
    ];
    for call in calls {
        checker.call(&mut kept.to_vec(), call);
    }
    let sync = with(0x46, &[]);
    for commands in [&[][..], &sync] {
        let call = Call::WriteBatch {
            commands,
            features: ALL,
        };
        checker.write(&mut kept.to_vec(), &mut queue.to_vec(), call);
    }
}

/// The calls with what each of them alone refuses; the memory has neither an
/// active error nor a pending interrupt.
fn every_refused(checker: &mut Checker, kept: &[u64]) {
    let run = Call::Run {
        queue: &[],
        features: ALL,
        allowance: u64::MAX,
    };
    let fill = |row| Call::Fill {
        row,
        words: [2; 4],
        allowance: u64::MAX,
    };
    let table_fill = |row| Call::TableFill {
        row,
        words: [2; 2],
        allowance: u64::MAX,
    };
    let ill_formed = Asked {
        memattr: 4,
        ..asked()
    };
    let calls = [
        run,
        fill(0),
        fill(u64::MAX),
        Call::Doorbell { wr: u64::MAX },
        Call::Acknowledge,
        Call::Translate(ill_formed),
        Call::ClearPending,
        table_fill(0),
        table_fill(u64::MAX),
        check(&[0]),
    ];
    for call in calls {
        checker.call(&mut kept.to_vec(), call);
    }
    for commands in [&[][..], &[0]] {
        let call = Call::WriteBatch {
            commands,
            features: ALL,
        };
        checker.write(&mut kept.to_vec(), &mut [], call);
    }
}
