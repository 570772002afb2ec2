//! What document 02, T-11 says of the second table, over bits alone.

use crate::call::{Call, Reply, CUT};
use crate::model::control::Control;

const DPT: u64 = 1 << 6;
/// The pages of 4KB, 16KB, 64KB, 2MB, 32MB, 512MB, 1GB, 16GB, 64GB and 512GB.
const PAGES: [u64; 10] = [
    1,
    4,
    16,
    512,
    8 << 10,
    128 << 10,
    256 << 10,
    4 << 20,
    16 << 20,
    128 << 20,
];

/// The second table before and after a call.
type Tables<'a> = (&'a [u64], &'a [u64]);

/// The law that a call broke which was carried out, if any: only runs and the fills
/// of the table store to it.
pub fn broken(call: Call, reply: Reply, (before, after): Tables) -> Option<&'static str> {
    match call {
        Call::Run { .. } => None,
        Call::TableFill {
            row,
            words,
            allowance,
        } => {
            let at = 2 * row as usize;
            let [end, stores, ..] = reply.answer;
            let due: [u64; 2] = match stores {
                0 => [0, before[at + 1]],
                1 => [0, words[1]],
                _ => words,
            };
            let others = |words: &[u64]| [&words[..at], &words[at + 2..]].concat();
            let right = after[at..at + 2] == due && others(before) == others(after);
            let counted = stores == allowance.min(2) && end == u64::from(stores < 2);
            (!right || !counted).then_some("a fill of the table isn't the base and then word 0")
        }
        _ => (before != after).then_some("a call stored to a table that it isn't passed"),
    }
}

/// Code and high word of each command that a run consumed, and of the one that it
/// began.
fn begun(before: &[u64], queue: &[u8], reply: Reply) -> Vec<(u8, u64)> {
    let control = Control::fields(before[0]);
    let [end, consumed, ..] = reply.answer;
    let begun = consumed + u64::from(end == CUT);
    (control.rd..control.rd + begun)
        .map(|index| &queue[16 * (index % control.slots()) as usize..][..16])
        .map(|slot| (slot[0], u64::from_le_bytes(slot[8..].try_into().unwrap())))
        .collect()
}

/// A run clears rows of the table by 70 and 73 alone, with DPT alone, and these clear
/// nothing else; 73 takes no row from elsewhere or above its SIZE, and a 70 that is
/// consumed leaves none.
pub fn run(
    before: &[u64],
    (queue, features): (&[u8], u64),
    reply: Reply,
    (after, (table, left)): (&[u64], Tables),
) -> Option<&'static str> {
    let begun = begun(before, queue, reply);
    let of = |code: u8| code == 0x70 || code == 0x73;
    let consumed = &begun[..reply.answer[1] as usize];
    if consumed.iter().any(|&(code, _)| of(code)) && features & DPT == 0 {
        return Some("70 or 73 is consumed without DPT");
    }
    if begun.iter().all(|&(code, _)| of(code)) && before[1..] != after[1..] {
        return Some("70 or 73 takes a row of the kept memory");
    }
    if consumed.iter().any(|&(code, _)| code == 0x70) && left.iter().step_by(2).any(|&w| w != 0) {
        return Some("a row of the table stays after 70");
    }
    let pairs = table.chunks_exact(2).zip(left.chunks_exact(2));
    for (old, new) in pairs.filter(|(old, new)| old != new) {
        if new != [0, old[1]] {
            return Some("a run stores something else to the table than 0 to word 0");
        }
        if features & DPT == 0 {
            return Some("a row of the table goes without DPT");
        }
        let page = |address: u64| address << 12 >> 24;
        let due = |&(code, high): &(u8, u64)| {
            let (size, own) = (high as usize >> 8 & 15, old[0] as usize >> 2 & 15);
            let leaf = high & 1 == 1 && old[0] & 2 == 0;
            let pages = PAGES.get(size).copied().unwrap_or(0);
            let ahead = page(old[1]).wrapping_sub(page(high));
            let whole = page(high).checked_rem(pages) == Some(0);
            code == 0x70 || code == 0x73 && whole && ahead < pages && own <= size && !leaf
        };
        if !begun.iter().any(due) {
            return Some("a row of the table goes by no command that is about it");
        }
    }
    None
}
