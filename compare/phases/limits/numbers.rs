//! Every number that a call is passed, in its place and bit by bit.
//!
//! This is what pins the order of the C interface's parameters. A contract goes
//! by their names and says nothing of their order, so that two could change
//! places and all would still prove. Here the numbers of one call differ, and
//! each matters: whatever takes the place of another changes what comes of the
//! call. The gate tries it with each two of them exchanged (wrong.rs).

use super::{asked, bytes, chain, first, second, table, waiting, ALL, AS_IT_COMES};
use super::{ASID, MIDDLE, OUTPUT, PAGE, STAGE1_PAYLOAD, STREAM, SUBSTREAM, VMID, WRITE_BACK};
use crate::call::{Call, NUMBERS};
use crate::checker::Checker;
use crate::generate::commands::{DPT, KNOWN, RIL};
use crate::generate::images::with_rows;
use crate::generate::ranges::Range;
use crate::generate::regions::{about, empty, region, with_regions};
use crate::generate::rows::{cd, cd_table, ste, ste_block, Reach, Words};
use crate::limits::LOG2SIZE;
use crate::model::control::Control;

pub fn sweeps(checker: &mut Checker) {
    checker.phase("limits: every bit of every number passed");
    transactions(checker);
    fills(checker);
    table_fills(checker);
    runs(checker);
    checks(checker);
    controls(checker);
}

/// The call as it is, then with each number's bits changed one at a time, and
/// with each number at its least and at its largest.
fn sweep(checker: &mut Checker, kept: &[u64], call: Call) {
    sweep_beside(checker, kept, &empty(), call);
}

/// The same with a second table.
fn sweep_beside(checker: &mut Checker, kept: &[u64], table: &[u64], call: Call) {
    let numbers = call.numbers();
    checker.both(&mut kept.to_vec(), &mut table.to_vec(), call);
    for (place, &(_, bits)) in NUMBERS[call.index()].iter().enumerate() {
        let flipped = (0..bits).map(|bit| numbers[place] ^ 1 << bit);
        for number in flipped.chain([0, u64::MAX >> (64 - bits)]) {
            let mut others = numbers.clone();
            others[place] = number;
            let call = call.passing(&others);
            checker.both(&mut kept.to_vec(), &mut table.to_vec(), call);
        }
    }
}

/// Config 4 lets address, how and attributes through; with stages StreamID,
/// SubstreamID and address decide which rows answer, and stage 2 keeps hints.
fn transactions(checker: &mut Checker) {
    for config in [4, 5, 6, 7] {
        let kept = with_rows(waiting(0, 0), &chain(config));
        sweep(checker, &kept, Call::Translate(asked()));
    }
}

/// Row 2 of five is to be filled; 3 is empty too, the others are in use.
fn fills(checker: &mut Checker) {
    let empty = [0; 4];
    let kept = with_rows(waiting(0, 0), &table(5, &[(2, empty), (3, empty)]));
    let last = second(PAGE);
    let samples: [Words; 8] = [
        first().page(OUTPUT, STAGE1_PAYLOAD),
        first().table(),
        last.page(OUTPUT, WRITE_BACK),
        last.table(),
        ste(STREAM, VMID, 7, AS_IT_COMES),
        ste_block(STREAM, 6),
        cd(STREAM, SUBSTREAM, ASID),
        cd_table(STREAM),
    ];
    for words in samples {
        for allowance in [0, 4] {
            let row = 2;
            sweep(
                checker,
                &kept,
                Call::Fill {
                    row,
                    words,
                    allowance,
                },
            );
        }
    }
}

/// Row 2 of five is to be filled in the second table; 3 is empty too, the others are in
/// use.
fn table_fills(checker: &mut Checker) {
    let kept = with_rows(waiting(0, 0), &table(5, &[]));
    let used = region(0, true, PAGE);
    let table = with_regions(&[used, used, [0, 0], [0, 0], used]);
    for words in [
        region(0, true, PAGE),
        region(9, false, 0),
        region(1, true, MIDDLE),
    ] {
        for allowance in [0, 1, 2] {
            let row = 2;
            let call = Call::TableFill {
                row,
                words,
                allowance,
            };
            sweep_beside(checker, &kept, &table, call);
        }
    }
}

/// A row and a command for each feature: 13 and 28 want one, 11 and 10 have an ASID
/// and a VMID of more than eight bits, one has a range, and 73 and 70 are about a row of
/// the second table each.
fn runs(checker: &mut Checker) {
    let (wide_asid, wide_vmid) = (0x100 | ASID, 0x200 | VMID);
    let of = |vmid, asid| {
        let reach = Reach {
            vmid,
            asid,
            ..first()
        };
        reach.page(OUTPUT, STAGE1_PAYLOAD)
    };
    let rows = [
        of(VMID, ASID),
        of(0, wide_asid),
        of(wide_vmid, ASID),
        second(PAGE).page(OUTPUT, WRITE_BACK),
    ];
    let queue = bytes(&[
        (0x1046, 0),
        (0x11 | wide_asid << 48, 0),
        (0x10 | wide_vmid << 32, 0),
        (0x13, PAGE),
        (0x28 | VMID << 32, 0),
        about(PAGE, 0, 0),
        (0x70, 0),
        Range::new(1, 1, 0).over((0x13, PAGE)),
    ]);
    let table = with_regions(&[region(0, true, PAGE), region(1, true, PAGE)]);
    let kept = with_rows(waiting(3, 8), &rows);
    for features in [
        0,
        0b0101,
        0b0010,
        0b1011,
        ALL,
        ALL | RIL,
        ALL | DPT,
        ALL | RIL | DPT,
    ] {
        for allowance in [0, 3, 6, 9, u64::MAX] {
            let call = Call::Run {
                queue: &queue,
                features,
                allowance,
            };
            sweep_beside(checker, &kept, &table, call);
        }
    }
}

/// Each command alone against none, over the rows that it takes.
fn checks(checker: &mut Checker) {
    let rows = [
        first().page(OUTPUT, STAGE1_PAYLOAD),
        second(PAGE).page(OUTPUT, WRITE_BACK),
    ];
    let (kept, table) = (
        with_rows(waiting(0, 0), &rows),
        with_regions(&[region(0, true, PAGE)]),
    );
    let (vmid, asid) = (VMID << 32, ASID << 48);
    for command in [
        (0x10 | vmid, 0),
        (0x11 | vmid | asid | 1 << 56, 0),
        (0x28 | vmid | 1 << 40, 0),
        Range::new(1, 1, 0).over((0x2A | vmid, PAGE)),
        (0x20, 0),
        (0x73, PAGE),
    ] {
        let batch = bytes(&[command]);
        for features in [0, ALL, ALL | RIL | DPT, KNOWN] {
            let call = Call::CheckBatch {
                original: &batch,
                proposed: &[],
                features,
            };
            sweep_beside(checker, &kept, &table, call);
        }
    }
}

fn controls(checker: &mut Checker) {
    for (log2size, rd, wr, new) in [
        (0, 0, 0, 1),
        (2, 5, 6, 7),
        (2, 6, 6, 2),
        (LOG2SIZE, 3, 5, 7),
    ] {
        let control = Control {
            rd,
            ..waiting(log2size, wr)
        };
        let kept = with_rows(control, &[[0; 4]]);
        sweep(checker, &kept, Call::Doorbell { wr: new });
    }
    for enabled in [false, true] {
        let control = Control {
            enabled,
            ..waiting(0, 0)
        };
        let kept = with_rows(control, &[[0; 4]]);
        for on in [0, 1, 1 << 63] {
            sweep(checker, &kept, Call::Enable { on });
        }
    }
}
