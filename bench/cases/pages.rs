//! One guest's pages: half the rows are of stage 1 and half of stage 2, and no
//! command removes any.

use super::{bytes, memory, shuffle, Case, Command, Lent, Per, Size, Work};
use super::{GUEST_FEATURES, RIL, STAGE1_PAYLOAD, STAGE2_PAYLOAD};
use crate::random::Random;
use crate::rows::{Reach, Words, STAGE1, STAGE2};

const VMID: u64 = 5;
const ASIDS: u64 = 4;
const BLOCK: u64 = 1 << 21;

/// A page in one of 2^18 blocks of 2 MiB. Rows have the even blocks and commands
/// the odd ones, so that no row covers a command's address.
fn page(random: &mut Random, odd: u64) -> u64 {
    (2 * random.below(1 << 17) + odd) * BLOCK + random.below(512) * 4096
}

fn rows(size: Size) -> Vec<Words> {
    let mut random = Random::new(3);
    let mut rows = Vec::new();
    for place in 0..size.rows {
        let (kind, payload) = match place % 2 {
            0 => (STAGE1, STAGE1_PAYLOAD),
            _ => (STAGE2, STAGE2_PAYLOAD),
        };
        let reach = Reach {
            kind,
            vmid: VMID,
            asid: random.below(ASIDS),
            global: false,
            span: random.pick(&[12, 12, 12, 21]),
            page: page(&mut random, 0),
        };
        rows.push(reach.page(page(&mut random, 0), payload));
    }
    shuffle(4, &mut rows);
    rows
}

fn commands(size: Size) -> Vec<Command> {
    let mut random = Random::new(5);
    let mut command = |place: usize| -> Command {
        let low = VMID << 32;
        let asid = random.below(ASIDS) << 48;
        let high = page(&mut random, 1) | random.below(2);
        match place % 3 {
            0 => (low | asid | 0x12, high),
            1 => (low | 0x13, high),
            _ => (low | 0x2A, high),
        }
    };
    let mut commands: Vec<Command> = (0..size.commands()).map(&mut command).collect();
    shuffle(6, &mut commands);
    commands
}

/// The scan's worst case: a command's kind and VMID fit half the rows, no address.
pub fn by_address(letter: &'static str, what: &'static str, size: Size) -> Case {
    Case::full(letter, what, size, &rows(size), &commands(size))
}

/// The same commands with a range each: 4 KiB granules, NUM 15, SCALE 0, which is 16
/// pages, from an address that keeps them within the odd block.
pub fn by_range(letter: &'static str, what: &'static str, size: Size) -> Case {
    let (num, granule) = (15 << 12, 1 << 10);
    let ranged = |&(low, high): &Command| (low | num, high & !0xF000 | granule);
    let commands: Vec<Command> = commands(size).iter().map(ranged).collect();
    let full = Case::full(letter, what, size, &rows(size), &commands);
    Case {
        work: Work::Runs {
            queues: vec![bytes(size, &commands)],
            features: GUEST_FEATURES | RIL,
        },
        ..full
    }
}

pub fn without_scope(letter: &'static str, what: &'static str, size: Size) -> Case {
    let command = |place: usize| -> Command {
        match place % 3 {
            0 => (0x01, 0),
            1 => (0x02, 0),
            _ => (0x46, 0),
        }
    };
    let mut commands: Vec<Command> = (0..size.commands()).map(command).collect();
    shuffle(7, &mut commands);
    Case::full(letter, what, size, &rows(size), &commands)
}

/// A page that no row doubles, into the last row: a fill looks at all of them.
pub fn fill(letter: &'static str, what: &'static str, size: Size) -> Case {
    let mut random = Random::new(8);
    let reach = Reach {
        kind: STAGE1,
        vmid: VMID,
        asid: random.below(ASIDS),
        global: false,
        span: 12,
        page: page(&mut random, 1),
    };
    let last = size.rows - 1;
    let mut table = rows(size);
    table[last] = [0; 4];
    Case {
        letter,
        what,
        size,
        lent: Lent::without_regions(memory(size, 0, &table)),
        work: Work::Fill(last as u64, reach.page(BLOCK, STAGE1_PAYLOAD)),
        per: Per::Call,
        end: 0,
        removes: None,
    }
}
