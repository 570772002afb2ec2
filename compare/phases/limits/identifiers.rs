//! Every bit by which a row and a command, or a row and a transaction, are told
//! apart.

use super::{asked, bytes, chain, first, second, waiting, ALL};
use super::{ASID, OUTPUT, PAGE, STAGE1_PAYLOAD, STREAM, SUBSTREAM, VMID, WRITE_BACK};
use crate::call::Call;
use crate::checker::Checker;
use crate::generate::images::with_rows;
use crate::generate::rows::{cd, cd_table, ste, Reach, Words};

pub fn sweeps(checker: &mut Checker) {
    checker.phase("limits: every bit of every identifier");
    streams(checker);
    substreams(checker);
    spaces(checker);
    pages(checker);
    through(checker);
}

/// The number, and those that differ from it in one of the bits.
pub fn family(number: u64, bits: std::ops::Range<u32>) -> Vec<u64> {
    let others = bits.map(|bit| number ^ 1 << bit);
    std::iter::once(number).chain(others).collect()
}

/// Each command alone over the rows.
fn each(checker: &mut Checker, rows: &[Words], features: u64, commands: &[(u64, u64)]) {
    for &command in commands {
        let queue = bytes(&[command]);
        let call = Call::Run {
            queue: &queue,
            features,
            allowance: u64::MAX,
        };
        checker.call(&mut with_rows(waiting(0, 1), rows), call);
    }
}

fn streams(checker: &mut Checker) {
    let streams = family(STREAM, 0..32);
    let rows: Vec<Words> = streams
        .iter()
        .flat_map(|&stream| [ste(stream, 0, 4, 0), cd(stream, 0, 0), cd_table(stream)])
        .collect();
    for stream in streams {
        let named = |code: u64, high| (code | stream << 32, high);
        let commands = [
            named(0x03, 0),
            named(0x03, 1),
            named(0x04, 0),
            named(0x05, 0),
            named(0x05, 1),
            named(0x06, 0),
        ];
        each(checker, &rows, ALL, &commands);
    }
}

fn substreams(checker: &mut Checker) {
    let substreams = family(SUBSTREAM, 0..20);
    let rows: Vec<Words> = substreams.iter().map(|&s| cd(STREAM, s, 0)).collect();
    for substream in substreams {
        let command = (0x05 | STREAM << 32 | substream << 12, 0);
        each(checker, &rows, ALL, &[command]);
    }
}

/// VMIDs and ASIDs, with and without the features for wide ones.
fn spaces(checker: &mut Checker) {
    let (vmids, asids) = (family(VMID, 0..16), family(ASID, 0..16));
    let by_vmid = vmids.iter().flat_map(|&vmid| {
        let last = Reach { vmid, ..first() };
        let other = Reach {
            vmid,
            ..second(PAGE)
        };
        [
            last.page(OUTPUT, STAGE1_PAYLOAD),
            last.table(),
            other.page(OUTPUT, WRITE_BACK),
        ]
    });
    let by_asid = asids.iter().map(|&asid| Reach { asid, ..first() }.table());
    let rows: Vec<Words> = by_vmid.chain(by_asid).collect();
    for features in [ALL, ALL & !0b0100, ALL & !0b1000, 0b0011] {
        for vmid in &vmids {
            let commands = [0x10, 0x11 | ASID << 48, 0x12 | ASID << 48, 0x13, 0x28, 0x2A];
            let named = commands.map(|low| {
                let by_page = matches!(low & 0xFF, 0x12 | 0x13 | 0x2A);
                (low | vmid << 32, if by_page { PAGE } else { 0 })
            });
            each(checker, &rows, features, &named);
        }
        for asid in &asids {
            let space = VMID << 32 | asid << 48;
            each(
                checker,
                &rows,
                features,
                &[(0x11 | space, 0), (0x12 | space, PAGE)],
            );
        }
    }
}

/// Address bits that a command may have, and those that 2A may not.
fn pages(checker: &mut Checker) {
    let rows: Vec<Words> = family(PAGE, 12..52)
        .into_iter()
        .flat_map(|page| {
            let last = Reach { page, ..first() };
            [
                last.page(OUTPUT, STAGE1_PAYLOAD),
                second(page).page(OUTPUT, WRITE_BACK),
            ]
        })
        .collect();
    let space = VMID << 32 | ASID << 48;
    for page in family(PAGE, 12..64) {
        let vmid = VMID << 32;
        let commands = [
            (0x12 | space, page),
            (0x13 | vmid, page),
            (0x2A | vmid, page),
        ];
        each(checker, &rows, ALL, &commands);
    }
}

/// What a transaction compares of two rows: the VMID of its STE with those of
/// both stages, the ASID of its CD with that of stage 1. Its StreamID is also
/// compared with the CD row's, and its StreamID and SubstreamID with every row
/// that differs in one bit (numbers.rs).
fn through(checker: &mut Checker) {
    for config in [5, 6, 7] {
        for stream in family(STREAM, 0..32) {
            let mut rows = chain(config);
            rows[1] = cd(stream, SUBSTREAM, ASID);
            checker.call(
                &mut with_rows(waiting(0, 0), &rows),
                Call::Translate(asked()),
            );
        }
        for vmid in family(VMID, 0..16) {
            for row in [2, 3] {
                let mut rows = chain(config);
                rows[row][0] = rows[row][0] & !(0xFFFF << 16) | vmid << 16;
                checker.call(
                    &mut with_rows(waiting(0, 0), &rows),
                    Call::Translate(asked()),
                );
            }
        }
        for asid in family(ASID, 0..16) {
            for global in [0, 1 << 4] {
                let mut rows = chain(config);
                rows[2][0] = rows[2][0] & !(0xFFFF << 32) | asid << 32 | global;
                checker.call(
                    &mut with_rows(waiting(0, 0), &rows),
                    Call::Translate(asked()),
                );
            }
        }
    }
}
