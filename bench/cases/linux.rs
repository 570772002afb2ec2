//! What Linux guests sent (crates/verdicts/data), a queueful at a time, each time
//! over the same full table.

use super::{bytes, memory, shuffle, Case, Command, Lent, Per, Size, Work, ENABLED};
use super::{STAGE1_PAYLOAD, STE_PAYLOAD};
use crate::model::run::End;
use crate::rows::{cd, ste, Reach, Words, STAGE1};
use std::collections::{BTreeMap, BTreeSet};

/// A guest's commands, and the features that its SMMU had.
#[derive(Clone, Copy)]
pub struct Guest {
    sent: &'static [u8],
    features: u64,
}

/// S1P and ASID16.
pub const WITHOUT_RANGES: Guest = Guest {
    sent: include_bytes!("../../crates/verdicts/data/linux-6.12-no-ril.bin"),
    features: 0b101,
};

/// S1P, ASID16 and RIL.
pub const WITH_RANGES: Guest = Guest {
    sent: include_bytes!("../../crates/verdicts/data/linux-6.12.bin"),
    features: 0b10_0101,
};

fn commands(sent: &[u8]) -> Vec<Command> {
    let word = |bytes: &[u8]| {
        bytes
            .iter()
            .rev()
            .fold(0, |word, &byte| word << 8 | u64::from(byte))
    };
    let pair = |slot: &[u8]| (word(&slot[..8]), word(&slot[8..]));
    sent.chunks_exact(16).map(pair).collect()
}

/// Rows that this guest could have had: an STE and a CD row for each stream that
/// it names, and the pages that it invalidates most often.
fn rows(size: Size, commands: &[Command]) -> Vec<Words> {
    let mut streams = BTreeSet::new();
    let mut pages = BTreeMap::new();
    for &(low, high) in commands {
        match low & 0xFF {
            0x03 | 0x05 => drop(streams.insert(low >> 32)),
            0x12 => *pages.entry((low >> 48, high & !0xFFF)).or_insert(0) += 1,
            _ => {}
        }
    }
    let mut rows = Vec::new();
    for (&stream, asid) in streams.iter().zip(1..) {
        rows.push(ste(stream, 0, 5, STE_PAYLOAD));
        rows.push(cd(stream, 0, asid));
    }
    let mut often: Vec<_> = pages.into_iter().collect();
    often.sort_by_key(|&(_, times)| std::cmp::Reverse::<u32>(times));
    for ((asid, address), _) in often {
        let reach = Reach {
            kind: STAGE1,
            vmid: 0,
            asid,
            global: false,
            span: 12,
            page: address,
        };
        rows.push(reach.page(address, STAGE1_PAYLOAD));
    }
    rows.truncate(size.rows);
    shuffle(8, &mut rows);
    rows
}

pub fn case(letter: &'static str, what: &'static str, size: Size, guest: Guest) -> Case {
    let commands = commands(guest.sent);
    let queues = commands.chunks_exact(size.commands());
    Case {
        letter,
        what,
        size,
        lent: Lent::without_regions(memory(size, ENABLED, &rows(size, &commands))),
        work: Work::Runs {
            queues: queues.map(|queue| bytes(size, queue)).collect(),
            features: guest.features,
        },
        per: Per::Command,
        end: End::Empty as u64,
        removes: None,
    }
}
