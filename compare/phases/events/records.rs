//! Every bit of a record in its place, and what is read back.

use super::write;
use crate::call::Call;
use crate::checker::Checker;
use crate::generate::events::{memory, record, ring};

const SAME: &str = "what is read isn't what was written";

pub fn sweeps(checker: &mut Checker) {
    let mut random = checker.phase("events: every bit of a record");
    let any = record(&mut random);
    for (place, bit) in (0..32).flat_map(|place| (0..8).map(move |bit| (place, bit))) {
        let mut one = [0; 32];
        one[place] = 1 << bit;
        let mut other = any;
        other[place] ^= 1 << bit;
        for record in [one, other] {
            let mut events = memory(&mut random, ring(1, 3, 0, 2));
            back(checker, &mut events, &record);
        }
    }
}

/// Written into an empty ring and read: the same bytes.
fn back(checker: &mut Checker, events: &mut [u64], record: &[u8; 32]) {
    let before = events.to_vec();
    let call = write(record, 5);
    checker.call(events, call);
    let read = checker.call(events, Call::EventRead);
    let bytes: Vec<u8> = read
        .answer
        .iter()
        .flat_map(|word| word.to_le_bytes())
        .collect();
    let same = bytes[..32] == record[..] && bytes[32..] == [0; 32];
    checker.insist(same, SAME, &before, call, (read, events));
}
