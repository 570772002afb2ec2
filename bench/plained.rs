//! The plain version's run, check of a batch, fill and transaction as the C interface has them.
//!
//! They keep their names in the program, by which their instructions are counted.

use crate::plain::check::{check_batch, Verdict};
use crate::plain::fill::{fill, Report as Fill};
use crate::plain::refusal::Refusal;
use crate::plain::run::{run, End, Report as Run};
use crate::plain::translate::{translate, Outcome, Transaction};
use std::slice;

type Answer = [u64; 8];

#[no_mangle]
pub unsafe extern "C" fn plain_run(
    kept: *mut u64,
    words: usize,
    table: *mut u64,
    table_words: usize,
    queue: *const u8,
    bytes: usize,
    features: u64,
    allowance: u64,
    answer: *mut u64,
) -> u64 {
    let kept = slice::from_raw_parts_mut(kept, words);
    let table = slice::from_raw_parts_mut(table, table_words);
    let queue = slice::from_raw_parts(queue, bytes);
    let report = run(kept, table, queue, features, allowance);
    tell(report.map(ran), answer)
}

#[no_mangle]
pub unsafe extern "C" fn plain_check_batch(
    kept: *const u64,
    words: usize,
    table: *const u64,
    table_words: usize,
    original: *const u8,
    original_bytes: usize,
    proposed: *const u8,
    proposed_bytes: usize,
    features: u64,
    answer: *mut u64,
) -> u64 {
    let kept = slice::from_raw_parts(kept, words);
    let table = slice::from_raw_parts(table, table_words);
    let original = slice::from_raw_parts(original, original_bytes);
    let proposed = slice::from_raw_parts(proposed, proposed_bytes);
    let verdict = check_batch(kept, table, [original, proposed], features);
    tell(verdict.map(checked), answer)
}

#[no_mangle]
pub unsafe extern "C" fn plain_fill(
    kept: *mut u64,
    words: usize,
    row: u64,
    w0: u64,
    w1: u64,
    w2: u64,
    w3: u64,
    allowance: u64,
    answer: *mut u64,
) -> u64 {
    let kept = slice::from_raw_parts_mut(kept, words);
    let report = fill(kept, row, [w0, w1, w2, w3], allowance);
    tell(report.map(filled), answer)
}

#[no_mangle]
pub unsafe extern "C" fn plain_translate(
    kept: *const u64,
    words: usize,
    stream: u32,
    substream: u32,
    address: u64,
    how: u64,
    memattr: u64,
    sh: u64,
    hints: u64,
    answer: *mut u64,
) -> u64 {
    let kept = slice::from_raw_parts(kept, words);
    let asked = Transaction::new((stream, substream), address, how, [memattr, sh, hints]);
    tell(translate(kept, asked).map(translated), answer)
}

fn ran(report: Run) -> Answer {
    let (end, reason, slot) = match report.end {
        End::Off => (0, 0, 0),
        End::Held => (1, 0, 0),
        End::Empty => (2, 0, 0),
        End::Raised { reason, slot } => (3, reason as u64, slot),
        End::Cut => (4, 0, 0),
    };
    let (stores, removed) = (report.stores, report.removed);
    let (consumed, interrupts) = (report.consumed, report.interrupts);
    [end, consumed, stores, removed, interrupts, reason, slot, 0]
}

fn checked(verdict: Verdict) -> Answer {
    match verdict {
        Verdict::Same => [0; 8],
        Verdict::Unfit(batch, command) => [1, batch, command, 0, 0, 0, 0, 0],
        Verdict::Differ(row) => [2, row, 0, 0, 0, 0, 0, 0],
    }
}

fn filled(report: Fill) -> Answer {
    [u64::from(report.cut), report.stores, 0, 0, 0, 0, 0, 0]
}

fn translated(outcome: Outcome) -> Answer {
    let told = match outcome {
        Outcome::Address(told) => told,
        Outcome::Abort => return [1, 0, 0, 0, 0, 0, 0, 0],
        Outcome::MissSte => return [2, 0, 0, 0, 0, 0, 0, 0],
        Outcome::MissCd => return [3, 0, 0, 0, 0, 0, 0, 0],
        Outcome::MissStage1 => return [4, 0, 0, 0, 0, 0, 0, 0],
        Outcome::MissStage2 => return [5, 0, 0, 0, 0, 0, 0, 0],
    };
    let attributes = told.attributes;
    [
        0,
        told.address,
        attributes.memattr.into(),
        attributes.sh.into(),
        attributes.hints.into(),
        told.instruction.into(),
        told.privileged.into(),
        0,
    ]
}

unsafe fn tell(result: Result<Answer, Refusal>, told: *mut u64) -> u64 {
    let (number, answer) = match result {
        Ok(answer) => (0, answer),
        Err(refusal) => (refusal.number(), [refusal.place(), 0, 0, 0, 0, 0, 0, 0]),
    };
    slice::from_raw_parts_mut(told, 8).copy_from_slice(&answer);
    number
}
