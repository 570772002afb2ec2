//! What document 02, T-01 says of the recorder, in records and not in indexes.

use crate::call::{Call, Reply, DROPPED, STORED};

const OVERFLOW: u64 = 1 << 40;
const ACKNOWLEDGED: u64 = 1 << 41;

/// The records that wait, the oldest first.
fn waiting(events: &[u64]) -> Vec<[u64; 4]> {
    let slots = events.len() / 4;
    let (mut rd, wr) = (events[0] & 0xF_FFFF, events[0] >> 20 & 0xF_FFFF);
    let mut records = Vec::new();
    while rd != wr {
        let first = 1 + 4 * (rd as usize % slots);
        records.push(std::array::from_fn(|word| events[first + word]));
        rd = (rd + 1) % (2 * slots as u64);
    }
    records
}

fn words(record: &[u8; 32]) -> [u64; 4] {
    std::array::from_fn(|word| {
        let bytes = std::array::from_fn(|byte| record[8 * word + byte]);
        u64::from_le_bytes(bytes)
    })
}

/// The law that a call broke which was carried out, if any.
pub fn broken(before: &[u64], call: Call, reply: Reply, after: &[u64]) -> Option<&'static str> {
    let (old, new) = (waiting(before), waiting(after));
    let flags = |events: &[u64]| events[0] & (OVERFLOW | ACKNOWLEDGED);
    let flipped = flags(before) ^ flags(after);
    match call {
        Call::EventWrite { record, allowance } => {
            return write(before, (record, allowance), reply, after);
        }
        Call::EventRead => {
            let first = std::array::from_fn(|word| reply.answer[word]);
            let moved = old.split_first() == Some((&first, &new[..]));
            if !moved || flipped != 0 || before[1..] != after[1..] {
                return Some("reading isn't taking the oldest record out");
            }
        }
        _ if flipped != ACKNOWLEDGED || before[0] ^ after[0] != flipped => {
            return Some("acknowledging changed something else");
        }
        _ if before[1..] != after[1..] => return Some("acknowledging changed a slot"),
        _ => (),
    }
    None
}

fn write(
    before: &[u64],
    (record, allowance): (&[u8; 32], u64),
    reply: Reply,
    after: &[u64],
) -> Option<&'static str> {
    let (mut old, new) = (waiting(before), waiting(after));
    let [end, stores, ..] = reply.answer;
    let outstanding = before[0] & OVERFLOW != before[0] >> 1 & OVERFLOW;
    let full = old.len() == before.len() / 4;
    if end == STORED {
        old.push(words(record));
        let flags = before[0] >> 40 == after[0] >> 40;
        let met = old == new && stores == 5 && allowance >= 5 && flags && !full;
        return (!met).then_some("a record that is stored isn't behind the others");
    }
    if end == DROPPED {
        let flip = if outstanding { 0 } else { OVERFLOW };
        let met = before[0] ^ after[0] == flip && before[1..] == after[1..];
        let counted = stores == u64::from(!outstanding) && stores <= allowance;
        return (!met || !counted || !full).then_some("a drop isn't one flip of a flag at most");
    }
    let due = if full { u64::from(!outstanding) } else { 5 };
    let met = before[0] == after[0] && old == new && stores == allowance && stores < due;
    (!met).then_some("a cut shows a part of a record, or comes with a store left")
}
