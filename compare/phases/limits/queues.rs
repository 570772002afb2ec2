//! Full queues of one kind of command, and every slot of the largest queue.

use super::{bytes, first, second, waiting};
use super::{ASID, OUTPUT, PAGE, STAGE1_PAYLOAD, STREAM, SUBSTREAM, VMID, WRITE_BACK};
use crate::call::Call;
use crate::checker::Checker;
use crate::generate::commands::KNOWN;
use crate::generate::images::with_rows;
use crate::generate::ranges::Range;
use crate::generate::rows::{cd, cd_table, marked, ste, Reach, Words, EL2_E2H};
use crate::limits::{LOG2SIZE, ROWS, SLOTS};
use crate::model::control::Control;

pub fn sweeps(checker: &mut Checker) {
    checker.phase("limits: full queues of one kind");
    for log2size in 0..=LOG2SIZE {
        one_kind(checker, log2size);
    }
    checker.phase("limits: a row removed by each command");
    one_each(checker);
    checker.phase("limits: every slot of the largest queue");
    slots(checker);
}

/// A full queue whose first command stands at `rd`.
fn full(log2size: u64, rd: u64) -> Control {
    let slots = 1 << log2size;
    Control {
        rd,
        ..waiting(log2size, (rd + slots) % (2 * slots))
    }
}

fn run(checker: &mut Checker, kept: &mut [u64], queue: &[u8], allowance: u64) {
    let call = Call::Run {
        queue,
        features: KNOWN,
        allowance,
    };
    checker.call(kept, call);
}

/// A command of each code, two with a range, CMD_SYNC with each CS, and one that is
/// illegal.
fn kinds() -> [(u64, u64); 23] {
    let (stream, vmid, asid) = (STREAM << 32, VMID << 32, ASID << 48);
    let range = Range::new(2, 1, 0);
    [
        (0x1046, 0),
        (0x46, 0),
        (0x2046, 0),
        (0x01, 0),
        (0x02, 0),
        (0x03 | stream, 0),
        (0x04 | stream, 31),
        (0x05 | stream | SUBSTREAM << 12, 0),
        (0x06 | stream, 0),
        (0x10 | vmid, 0),
        (0x11 | vmid | asid, 0),
        (0x12 | vmid | asid, PAGE),
        (0x13 | vmid, PAGE),
        (0x20, 0),
        (0x21 | asid, 0),
        (0x22 | asid, PAGE),
        (0x23, PAGE),
        (0x28 | vmid, 0),
        (0x2A | vmid, PAGE),
        range.over((0x12 | vmid | asid, 0)),
        range.over((0x2A | vmid, PAGE)),
        (0x30, 0),
        (0, 0),
    ]
}

/// So many commands of one kind, from both ends of the ring, cut at both ends of
/// the run and then called again; and with the last of them illegal.
fn one_kind(checker: &mut Checker, log2size: u64) {
    let rows = [
        ste(STREAM, VMID, 7, 0),
        cd(STREAM, SUBSTREAM, ASID),
        cd_table(STREAM),
        first().page(OUTPUT, STAGE1_PAYLOAD),
        marked(first().table(), EL2_E2H),
        second(PAGE).page(OUTPUT, WRITE_BACK),
    ];
    let slots = 1u64 << log2size;
    for kind in kinds() {
        let queue = bytes(&vec![kind; slots as usize]);
        for rd in [0, 1, slots - 1, slots, 2 * slots - 1] {
            let mut kept = with_rows(full(log2size, rd), &rows);
            run(checker, &mut kept, &queue, u64::MAX);
        }
        let most = slots + rows.len() as u64;
        let edges = [0, 1, slots - 1, slots, slots + 1, slots + 2, most - 1, most];
        for allowance in edges {
            let mut kept = with_rows(full(log2size, 1), &rows);
            run(checker, &mut kept, &queue, allowance);
            run(checker, &mut kept, &queue, u64::MAX);
        }
        let mut spoilt = queue.clone();
        let last = 16 * (slots as usize - 1);
        spoilt[last] = 0xFF;
        for allowance in edges {
            let mut kept = with_rows(full(log2size, 0), &rows);
            run(checker, &mut kept, &spoilt, allowance);
        }
    }
}

/// The most stores that a run can make: as many commands as fit, over as many
/// rows as fit, each of which another command removes, the last row first.
fn one_each(checker: &mut Checker) {
    let of = |vmid| Reach { vmid, ..first() };
    let rows: Vec<Words> = (0..ROWS).map(|vmid| of(vmid).table()).collect();
    let command = |place: u64| match ROWS.checked_sub(place + 1) {
        Some(vmid) => (0x10 | vmid << 32, 0),
        None => (0x1046, 0),
    };
    let commands: Vec<_> = (0..SLOTS).map(command).collect();
    let queue = bytes(&commands);
    let most = SLOTS + ROWS.min(SLOTS);
    for allowance in [0, ROWS, SLOTS, most - 1, most, most + 1, u64::MAX] {
        let mut kept = with_rows(full(LOG2SIZE, 0), &rows);
        run(checker, &mut kept, &queue, allowance);
        run(checker, &mut kept, &queue, u64::MAX);
    }
}

/// Each place of the ring holds the only command, which alone is legal. Then its
/// last bit is changed, which nobody looks at in one and is Reserved in the other.
fn slots(checker: &mut Checker) {
    let mut queue = bytes(&vec![(0, 0); SLOTS as usize]);
    for (command, allowance) in [((0x1046, 1 << 63), 1), ((0x06 | STREAM << 32, 0), 2)] {
        for rd in 0..2 * SLOTS {
            let slot = 16 * (rd % SLOTS) as usize;
            let control = Control {
                rd,
                ..waiting(LOG2SIZE, (rd + 1) % (2 * SLOTS))
            };
            queue[slot..slot + 16].copy_from_slice(&bytes(&[command]));
            let mut kept = with_rows(control, &[cd_table(STREAM)]);
            run(checker, &mut kept, &queue, allowance);
            queue[slot + 15] ^= 0x80;
            let mut kept = with_rows(control, &[cd_table(STREAM)]);
            run(checker, &mut kept, &queue, u64::MAX);
            queue[slot..slot + 16].fill(0);
        }
    }
}
