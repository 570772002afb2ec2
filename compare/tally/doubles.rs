//! Fills that would double a mapping, and those that nearly would (document 02,
//! T-02).

use super::Table;
use crate::call::{Call, Reply};
use crate::limits::UPPER;
use crate::model::image::rows;
use crate::model::row::{Kind, Row};

const KINDS: [&str; 4] = ["STE", "CD", "stage 1", "stage 2"];

/// Refused with 11; or filled although a row in use would be doubled, but that it
/// or the new one isn't last-level, that it is next to it, of another VMID, of
/// another ASID, in the other half, or of the other stage.
const FATES: [&str; 8] = [
    "no 11",
    "old table",
    "new table",
    "beside",
    "VMID",
    "ASID",
    "half",
    "kind",
];

/// How two stage rows are one lookup's: the new one is the old one, within it or
/// around it; by their ASID or as global ones; in the upper half, and at its end.
const WAYS: [&str; 9] = [
    "equal",
    "within",
    "around",
    "ASID",
    "new global",
    "old global",
    "both",
    "upper",
    "to 2^64",
];

#[derive(Default)]
pub struct Doubles {
    fates: [[u64; FATES.len()]; KINDS.len()],
    ways: [[u64; WAYS.len()]; 2],
}

impl Doubles {
    /// A call with the memory before it.
    pub fn count(&mut self, before: &[u64], call: &Call, reply: &Reply) {
        let Call::Fill { words, .. } = call else {
            return;
        };
        let new = Row(*words);
        match reply.number {
            0 => self.filled(before, new),
            11 => self.refused(before, new),
            _ => (),
        }
    }

    fn filled(&mut self, before: &[u64], new: Row) {
        let kind = new.kind() as usize;
        for old in rows(before).filter(Row::used) {
            for (fate, nearly) in NEARLY.iter().enumerate() {
                self.fates[kind][1 + fate] += u64::from(nearly(&new, &old));
            }
        }
    }

    fn refused(&mut self, before: &[u64], new: Row) {
        let kind = new.kind() as usize;
        self.fates[kind][0] += 1;
        let Some(ways) = kind.checked_sub(2).map(|stage| &mut self.ways[stage]) else {
            return;
        };
        for old in rows(before).filter(|old| new.doubles(old)) {
            let shape = match (new.span(), old.span()) {
                (new, old) if new == old => 0,
                (new, old) if new < old => 1,
                _ => 2,
            };
            let space = match (new.global(), old.global()) {
                (false, false) => 3,
                (true, false) => 4,
                (false, true) => 5,
                (true, true) => 6,
            };
            ways[shape] += 1;
            ways[space] += 1;
            ways[7] += u64::from(new.input() >= UPPER);
            ways[8] += u64::from(new.last() == u64::MAX);
        }
    }

    pub(super) fn print(&self, table: &mut Table) {
        let heads = |title: &str, heads: &[&str]| {
            print!("\n  {title:<14}");
            heads.iter().for_each(|head| print!("{head:>11}"));
            println!();
        };
        heads("Doubles", &FATES);
        for (kind, counts) in self.fates.iter().enumerate() {
            print!("  {:<14}", KINDS[kind]);
            for (&count, fate) in counts.iter().zip(FATES) {
                print!("  {}", table.cell(count, possible(kind, fate)));
            }
            println!();
        }
        heads("One lookup's", &WAYS);
        for (stage, counts) in self.ways.iter().enumerate() {
            print!("  {:<14}", KINDS[2 + stage]);
            for (way, &count) in counts.iter().enumerate() {
                print!("  {}", table.cell(count, stage == 0 || way < 4));
            }
            println!();
        }
    }
}

/// STE and CD rows have no space of addresses, and stage 2 has one half and no
/// ASID.
fn possible(kind: usize, fate: &str) -> bool {
    match fate {
        "VMID" | "kind" => kind >= 2,
        "ASID" | "half" => kind == 2,
        _ => true,
    }
}

type Nearly = fn(&Row, &Row) -> bool;

/// What keeps the two apart, in the order of `FATES`.
const NEARLY: [Nearly; FATES.len() - 1] = [
    |new, old| new.last_level() && !old.last_level() && met(new, &leaf(old)),
    |new, old| !new.last_level() && old.last_level() && met(&leaf(new), old),
    beside,
    |new, old| stage(new) && new.vmid() != old.vmid() && met(new, &changed(old, 0, VMID, new)),
    |new, old| stage(new) && new.asid() != old.asid() && met(new, &changed(old, 0, ASID, new)),
    |new, old| {
        let apart = new.input() ^ old.input() == UPPER;
        apart && met(new, &changed(old, 2, u64::MAX, new))
    },
    |new, old| {
        let other = new.kind() != old.kind() && stage(new) && stage(old);
        other && met(new, &changed(old, 0, 0b110, new))
    },
];

const VMID: u64 = 0xFFFF << 16;
const ASID: u64 = 0xFFFF << 32;

fn stage(row: &Row) -> bool {
    matches!(row.kind(), Kind::Stage1 | Kind::Stage2)
}

fn met(new: &Row, old: &Row) -> bool {
    new.doubles(old)
}

/// The row as if it were last-level; a block of streams has its first one.
fn leaf(row: &Row) -> Row {
    changed(row, 0, 1 << 3, &Row([1 << 3, 0, 0, 0]))
}

/// The row with bits of a word from another one.
fn changed(row: &Row, word: usize, bits: u64, from: &Row) -> Row {
    let mut row = *row;
    row.0[word] = row.0[word] & !bits | from.0[word] & bits;
    row
}

/// Streams or substreams that differ in a bit, or spans that touch.
fn beside(new: &Row, old: &Row) -> bool {
    let one_bit = |one: u64, other: u64| (one ^ other).count_ones() == 1;
    let (low, high) = if new.input() < old.input() {
        (new, old)
    } else {
        (old, new)
    };
    match new.kind() {
        Kind::Ste | Kind::Cd => {
            let word = new.0[1] % (1 << 52);
            let near = one_bit(word, old.0[1] % (1 << 52));
            near && met(new, &changed(old, 1, (1 << 52) - 1, new))
        }
        _ => {
            let touch = low.last().wrapping_add(1) == high.input();
            touch && met(new, &changed(old, 2, u64::MAX, new))
        }
    }
}
