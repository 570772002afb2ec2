//! What the paper says of every call, whoever makes it. Unit and model agree
//! before a law is asked, so that a broken one is mostly the model's fault.

mod check;
mod events;
mod hyp;
mod ranges;
mod regions;
pub mod writer;

use crate::call::{Call, Reply, CUT, EVENT_CALLS, RAISED};
use crate::model::control::Control;
use crate::model::image::used_rows;
use crate::model::region::used_regions;

/// The law that a call broke, if any.
pub fn broken(
    before: &[u64],
    call: Call,
    reply: Reply,
    after: &[u64],
    tables: (&[u64], &[u64]),
) -> Option<&'static str> {
    if reply.number != 0 {
        let same = before == after && tables.0 == tables.1;
        let stored = (!same).then_some("a refusal stored something");
        return stored
            .or_else(|| hyp::refused(before, call, reply))
            .or_else(|| check::refused(call, reply));
    }
    if let Some(law) = regions::broken(call, reply, tables) {
        return Some(law);
    }
    match call {
        _ if EVENT_CALLS.contains(&call.index()) => events::broken(before, call, reply, after),
        Call::Run {
            queue,
            features,
            allowance,
        } => run(
            (before, tables.0),
            queue,
            allowance,
            reply,
            (after, tables.1),
        )
        .or_else(|| hyp::run(before, (queue, features), reply, after))
        .or_else(|| ranges::run(before, (queue, features), reply, after))
        .or_else(|| regions::run(before, (queue, features), reply, (after, tables))),
        Call::Translate(_)
        | Call::State
        | Call::TableFill { .. }
        | Call::CheckBatch { .. }
        | Call::WriteCommand { .. }
            if before != after =>
        {
            Some("a call stored to a memory that it only reads")
        }
        Call::CheckBatch {
            original,
            proposed,
            features,
        } => check::broken((before, tables.0), [original, proposed], features, reply),
        Call::Translate(_) | Call::State | Call::TableFill { .. } | Call::WriteCommand { .. } => {
            None
        }
        Call::Fill { row, .. } => {
            let start = 1 + 4 * row as usize;
            let others = |words: &[u64]| [&words[..start], &words[start + 4..]].concat();
            (others(before) != others(after)).then_some("a fill changed another row")
        }
        _ if before[1..] != after[1..] => Some("a control call changed a row"),
        Call::ClearPending => {
            let one = pending(before) && before[0] ^ after[0] == PENDING;
            (!one).then_some("clearing changed another bit, or one that wasn't set")
        }
        _ => (pending(before) != pending(after)).then_some("a control call changed bit 55"),
    }
}

/// The sums of document 01, One run, and what document 02 adds.
fn run(
    (before, table_before): (&[u64], &[u64]),
    queue: &[u8],
    allowance: u64,
    reply: Reply,
    (after, table_after): (&[u64], &[u64]),
) -> Option<&'static str> {
    let [end, consumed, stores, removed, syncs, ..] = reply.answer;
    if stores != removed + consumed + u64::from(end == RAISED) {
        return Some("stores aren't rows removed and commands consumed, and one if Raised");
    }
    let used = |kept: &[u64], table: &[u64]| used_rows(kept) + used_regions(table);
    if used(before, table_before) != used(after, table_after) + removed {
        return Some("used rows before aren't used rows after and rows removed");
    }
    if stores > allowance || (end == CUT && stores != allowance) {
        return Some("more stores than allowed, or Cut with some left");
    }
    if syncs != signals(before, queue, consumed) {
        return Some("CMD_SYNCs counted aren't those consumed with CS 1");
    }
    if pending(after) != (pending(before) || syncs > 0) {
        return Some("bit 55 after isn't bit 55 before or a CMD_SYNC with CS 1");
    }
    let law = "reason and slot aren't those of the command that raised, if one did";
    (!carried(reply, after)).then_some(law)
}

/// The pending bit of document 02, T-08.
const PENDING: u64 = 1 << 55;

fn pending(kept: &[u64]) -> bool {
    kept[0] & PENDING != 0
}

/// How many of the commands that a run consumed are a CMD_SYNC with CS 1, by the
/// guest's bytes alone.
fn signals(before: &[u64], queue: &[u8], consumed: u64) -> u64 {
    let control = Control::fields(before[0]);
    let slots = (control.rd..control.rd + consumed).map(|index| index % control.slots());
    let bytes = slots.map(|slot| &queue[16 * slot as usize..]);
    let signal = |bytes: &&[u8]| bytes[0] == 0x46 && bytes[1] >> 4 & 3 == 1;
    bytes.filter(signal).count() as u64
}

/// Document 02, T-09: reason and slot come with Raised, and with nothing else.
fn carried(reply: Reply, after: &[u64]) -> bool {
    let [end, _, _, _, _, reason, slot, _] = reply.answer;
    if end == RAISED {
        (1..=4).contains(&reason) && slot == Control::fields(after[0]).slot()
    } else {
        (reason, slot) == (0, 0)
    }
}
