//! What document 02, T-10 says of the two writers: what is written reads as the fields
//! did, nothing else changes, and a refusal changes nothing.

use crate::call::{Call, Reply};
use crate::model::command::{decode, Features};
use crate::model::fields::*;

/// The law that a call broke, if any; `written` are the slot or the queue before and
/// after it.
pub fn broken(
    before: &[u64],
    call: Call,
    reply: Reply,
    after: &[u64],
    written: (&[u8], &[u8]),
) -> Option<&'static str> {
    if reply.number != 0 && written.0 != written.1 {
        return Some("a refusal wrote to the slots");
    }
    if reply.number == 0 && reply.answer != [0; 8] && !written.0.is_empty() {
        return Some("a writer that was carried out tells something");
    }
    match call {
        Call::WriteCommand { fields, features } => command(fields, features, reply, written),
        Call::WriteBatch { commands, features } => {
            batch(before, (commands, features), reply, after, written)
        }
        _ => None,
    }
}

/// Every field at its place. Those that a command doesn't have are 0, so that one sum
/// does for all of them; None if it is more than the two words hold.
fn sum(fields: &Fields) -> Option<u128> {
    let at = |field: usize, low: u32| u128::from(fields[field]) << low;
    let low = at(CODE, 0)
        | at(SUBSTREAM, 12)
        | at(CS, 12)
        | at(NUM, 12)
        | at(SCALE, 20)
        | at(STREAM, 32)
        | at(VMID, 32)
        | at(ASID, 48);
    let high = at(LEAF, 0)
        | at(RANGE, 0)
        | at(TTL128, 7)
        | at(TTL, 8)
        | at(SIZE, 8)
        | at(TG, 10)
        | at(ADDRESS, 12);
    let whole = low >> 64 == 0 && high >> 64 == 0 && fields[15] == 0;
    whole.then_some(high << 64 | low)
}

/// The legal command that reads as these fields, if there is one.
fn legal(fields: &Fields, features: u64) -> Option<u128> {
    let command = sum(fields)?;
    let same = read(command).as_ref() == Some(fields);
    let (low, high) = (command as u64, (command >> 64) as u64);
    let legal = same && decode(low, high, Features::from_bits(features)).is_ok();
    legal.then_some(command)
}

/// Whether a feature is missing: S1P for 05, 06, 10 to 13 and 20 to 23, the last with
/// Hyp; S2P for 28 and 2A; DPT for 70 and 73.
fn absent(code: u64, features: u64) -> bool {
    let wanted = match code {
        0x05 | 0x06 | 0x10 | 0x11 | 0x12 | 0x13 => 1,
        0x20 | 0x21 | 0x22 | 0x23 => 1 | 1 << 4,
        0x28 | 0x2A => 1 << 1,
        0x70 | 0x73 => 1 << 6,
        _ => 0,
    };
    features & wanted != wanted
}

/// The refusal that a command gets in itself; 0 if it gets none.
fn due(fields: &Fields, features: u64) -> u64 {
    match legal(fields, features) {
        _ if absent(fields[0], features) => 20,
        None => 21,
        Some(_) => 0,
    }
}

fn command(
    fields: &Fields,
    features: u64,
    reply: Reply,
    (slot, after): (&[u8], &[u8]),
) -> Option<&'static str> {
    let right = match slot.len() {
        16 => due(fields, features),
        _ => 19,
    };
    if reply.number != right {
        return Some("a command is written that is none, or one isn't that is");
    }
    let bytes = |command: u128| after != command.to_le_bytes();
    let wrong = reply.number == 0 && legal(fields, features).map_or(true, bytes);
    wrong.then_some("what is written doesn't read as the fields")
}

/// RD and WR of a control word, and the bits of LOG2SIZE.
fn indexes(control: u64) -> (u64, u64, u64) {
    let index = |shift: u32| control >> shift & 0xF_FFFF;
    (index(0), index(20), control >> 50 & 31)
}

fn batch(
    before: &[u64],
    (commands, features): (&[u64], u64),
    reply: Reply,
    after: &[u64],
    (queue, left): (&[u8], &[u8]),
) -> Option<&'static str> {
    if reply.number > 0 && reply.number < 20 {
        return None;
    }
    let own = commands.chunks(16).map(|words| match words.try_into() {
        Ok(fields) => due(fields, features),
        Err(_) => 21,
    });
    let mut own = own.enumerate();
    let first = own.find(|&(_, number)| number != 0);
    if matches!(reply.number, 20 | 21) != first.is_some() {
        return Some("20 or 21 without a bad command, or none with one");
    }
    let told = (reply.answer[0], reply.number);
    if first.is_some_and(|(place, number)| (place as u64, number) != told) {
        return Some("20 or 21 isn't that of the first bad command");
    }
    let (rd, wr, log2size) = indexes(before[0]);
    let (slots, count) = (1u64 << log2size, commands.len() as u64 / 16);
    let waits = wr.wrapping_sub(rd) & (2 * slots - 1);
    if first.is_none() && (waits + count > slots) != (reply.number == 22) {
        return Some("22 isn't given where the commands don't all fit, or where they do");
    }
    if reply.number != 0 {
        return None;
    }
    let mut due = queue.to_vec();
    for (number, words) in commands.chunks_exact(16).enumerate() {
        let slot = (wr as usize + number) & (slots as usize - 1);
        let fields = words.try_into().expect("sixteen words");
        let command = sum(fields).unwrap_or(0);
        due[16 * slot..][..16].copy_from_slice(&command.to_le_bytes());
    }
    if due != left {
        return Some("a batch isn't its commands in the slots from WR on");
    }
    let rung = (wr + count) & (2 * slots - 1);
    let due = before[0] & !(0xF_FFFF << 20) | rung << 20;
    let kept = after[0] == due && before[1..] == after[1..];
    (!kept).then_some("a batch doesn't move WR by its commands, or changes something else")
}
