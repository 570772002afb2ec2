//! The model's run, check of a batch, fill and transaction as the C interface has them.

use crate::answers::{checked, filled, ran, reply, transaction, translated};
use crate::call::{Asked, Reply};
use crate::model::check::check_batch;
use crate::model::command::Features;
use crate::model::fill::fill;
use crate::model::refusal::Refusal;
use crate::model::run::run;
use crate::model::transaction::translate;
use std::slice;

pub unsafe extern "C" fn model_run(
    kept: *mut u64,
    words: usize,
    table: *mut u64,
    table_words: usize,
    queue: *const u8,
    bytes: usize,
    features: u64,
    allowance: u64,
    answer: *mut u64,
) -> u64 {
    let kept = slice::from_raw_parts_mut(kept, words);
    let table = slice::from_raw_parts_mut(table, table_words);
    let queue = slice::from_raw_parts(queue, bytes);
    let features = Features::from_bits(features);
    let report = run(kept, table, queue, features, allowance, |_, _| ());
    tell(report.map(ran), answer)
}

pub unsafe extern "C" fn model_check_batch(
    kept: *const u64,
    words: usize,
    table: *const u64,
    table_words: usize,
    original: *const u8,
    original_bytes: usize,
    proposed: *const u8,
    proposed_bytes: usize,
    features: u64,
    answer: *mut u64,
) -> u64 {
    let kept = slice::from_raw_parts(kept, words);
    let table = slice::from_raw_parts(table, table_words);
    let original = slice::from_raw_parts(original, original_bytes);
    let proposed = slice::from_raw_parts(proposed, proposed_bytes);
    let features = Features::from_bits(features);
    let verdict = check_batch(kept, table, original, proposed, features);
    tell(verdict.map(checked), answer)
}

pub unsafe extern "C" fn model_fill(
    kept: *mut u64,
    words: usize,
    row: u64,
    w0: u64,
    w1: u64,
    w2: u64,
    w3: u64,
    allowance: u64,
    answer: *mut u64,
) -> u64 {
    let kept = slice::from_raw_parts_mut(kept, words);
    let outcome = fill(kept, row, [w0, w1, w2, w3], allowance);
    tell(outcome.map(filled), answer)
}

pub unsafe extern "C" fn model_translate(
    kept: *const u64,
    words: usize,
    stream: u32,
    substream: u32,
    address: u64,
    how: u64,
    memattr: u64,
    sh: u64,
    hints: u64,
    answer: *mut u64,
) -> u64 {
    let asked = Asked {
        stream,
        substream,
        address,
        how,
        memattr,
        sh,
        hints,
    };
    let kept = slice::from_raw_parts(kept, words);
    let outcome = translate(kept, &transaction(asked));
    tell(outcome.map(translated), answer)
}

unsafe fn tell(result: Result<[u64; 8], Refusal>, told: *mut u64) -> u64 {
    let Reply { number, answer } = reply(result);
    slice::from_raw_parts_mut(told, 8).copy_from_slice(&answer);
    number
}
