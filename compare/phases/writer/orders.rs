//! Refusals of batches in their order, and which command is named.

use super::{batch, several, ALL, DIRT};
use crate::checker::Checker;
use crate::generate::commands::{CODES, DPT, KNOWN};
use crate::generate::fields::{full, with, NONE};
use crate::generate::images::with_rows;
use crate::model::fields::{Fields, CODE};
use crate::phases::waiting;

pub fn sweeps(checker: &mut Checker) {
    checker.phase("writer: refusals of batches in their order");
    for faults in 0..1 << 7 {
        faulty(checker, faults);
    }
    checker.phase("writer: the first bad command is named");
    named(checker);
    checker.phase("writer: every bad command in a batch, and every feature");
    for code in CODES {
        within(checker, code);
    }
}

const LAW: &str = "another refusal of a batch comes first, or names another command";

/// 20 where DPT is missing; 21 always.
fn absent() -> Fields {
    with(0x70, &[])
}

fn bad() -> Fields {
    with(0x30, &[(NONE, 1)])
}

/// Queues that are off, held by an error, acknowledged, pending.
const STATES: [u64; 5] = [0, 1 << 49, 1 << 40 | 1 << 47, 1 << 40, 1 << 55];

/// A bad length, a bad control word, a bad row, a queue of another length, a command
/// whose feature is missing before or behind one that is bad, and no room.
fn faulty(checker: &mut Checker, faults: u32) {
    let bit = |place: u32| faults >> place & 1 == 1;
    let rows = [[0; 4], if bit(2) { [2, 0, 0, 0] } else { [0; 4] }];
    let waits = if bit(6) { 3 } else { 1 };
    let mut kept = with_rows(waiting(2, waits), &rows);
    if bit(0) {
        kept.push(0);
    }
    if bit(1) {
        kept[0] |= 1 << 63;
    }
    for (first, second) in [(4, 5), (5, 4)] {
        let command = |fault: u32| match (bit(fault), fault) {
            (true, 4) => absent(),
            (true, _) => bad(),
            _ => with(0x46, &[]),
        };
        let commands = [with(0x01, &[]), command(first), command(second)].concat();
        let own = [first, second].iter().position(|&fault| bit(fault));
        let due = match faults.trailing_zeros() {
            place @ 0..=2 => (u64::from(place) + 1, u64::from(place == 2)),
            3 => (4, 0),
            _ => match own {
                Some(place) => {
                    let number = if [first, second][place] == 4 { 20 } else { 21 };
                    (number, place as u64 + 1)
                }
                None => (if bit(6) { 22 } else { 0 }, 0),
            },
        };
        for length in if bit(3) {
            &[0, 48, 63, 65, 80, 128][..]
        } else {
            &[64]
        } {
            for state in STATES {
                let mut kept = kept.clone();
                kept[0] ^= state;
                refused(checker, &kept, *length, (&commands, ALL & !DPT), due);
            }
        }
    }
}

fn refused(
    checker: &mut Checker,
    kept: &[u64],
    length: usize,
    (commands, features): (&[u64], u64),
    due: (u64, u64),
) {
    let (mut after, mut queue) = (kept.to_vec(), vec![DIRT; length]);
    let call = batch(commands, features);
    let reply = checker.write(&mut after, &mut queue, call);
    let met = (reply.number, reply.answer[0]) == due;
    checker.insist(met, LAW, kept, call, (reply, &after));
}

/// One bad command at each place, another one behind it, a last one that isn't whole,
/// in queues with room and without.
fn named(checker: &mut Checker) {
    for count in [1, 2, 3, 7, 8, 9, 40] {
        for place in 0..count {
            for (fields, number) in [(absent(), 20), (bad(), 21), ([0; 16], 21)] {
                let mut commands = several(count);
                let mut put = |place: u64, fields: Fields| {
                    commands[16 * place as usize..][..16].copy_from_slice(&fields);
                    commands.clone()
                };
                let mut batches = vec![put(place, fields)];
                for behind in [place + 1, (place + count) / 2 + 1, count - 1] {
                    if behind > place && behind < count {
                        batches.push(put(behind, bad()));
                        batches.push(put(behind, absent()));
                    }
                }
                for commands in batches {
                    for waits in [0, 8] {
                        let due = (number, place);
                        let broken = [&commands[..], &[0x46]].concat();
                        in_order(checker, waits, &commands, due);
                        in_order(checker, waits, &broken, due);
                    }
                }
            }
        }
        for more in 1..16 {
            let commands = several(count + 1);
            let words = 16 * count as usize + more;
            in_order(checker, 0, &commands[..words], (21, count));
            in_order(checker, 8, &commands[..words], (21, count));
        }
    }
    for words in 1..16 {
        in_order(checker, 0, &with(0x46, &[])[..words], (21, 0));
        in_order(checker, 8, &absent()[..words], (21, 0));
    }
}

/// A queue of eight slots, of which some are taken; without DPT.
fn in_order(checker: &mut Checker, waits: u64, commands: &[u64], due: (u64, u64)) {
    let kept = with_rows(waiting(3, waits), &[[0; 4]]);
    refused(checker, &kept, 128, (commands, KNOWN & !DPT), due);
}

/// Each code alone and as the second of two, under features of which one is missing.
fn within(checker: &mut Checker, code: u64) {
    let features = (0..8).map(|bit| KNOWN & !(1 << bit));
    for features in features.chain([0, KNOWN, !0, 1 << 63, 1 << 63 | KNOWN]) {
        let mut foreign = full(code);
        foreign[NONE] = 1 << 63;
        let mut other = full(code);
        other[CODE] |= 1 << 8;
        for fields in [full(code), with(code, &[]), foreign, other] {
            for commands in [fields.to_vec(), [with(0x30, &[]), fields].concat()] {
                let mut kept = with_rows(waiting(1, 0), &[[0; 4]]);
                let mut queue = [DIRT; 32];
                checker.write(&mut kept, &mut queue, batch(&commands, features));
            }
        }
    }
}
