//! The arguments of a run for a program on another machine.

use crate::cases::{Case, Work};
use std::io::{stdout, Write};

/// Writes the lengths of kept memory, second table and queue in words, the features, and
/// the three themselves.
pub fn words(case: &Case) -> Result<(), String> {
    let Work::Runs { queues, features } = &case.work else {
        return Err("not a run".into());
    };
    let [queue] = &queues[..] else {
        return Err("not a single run".into());
    };
    let (kept, table) = (&case.lent.kept, &case.lent.table);
    let lengths = [kept.len(), table.len(), queue.len() / 8].map(|length| length as u64);
    let words = lengths.iter().chain([features]).chain(kept).chain(table);
    let bytes: Vec<u8> = words.flat_map(|word| word.to_le_bytes()).collect();
    let mut out = stdout().lock();
    let written = out.write_all(&bytes).and_then(|()| out.write_all(queue));
    written.map_err(|why| why.to_string())
}
