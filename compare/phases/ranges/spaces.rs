//! Whose the rows are, and of which level: a range takes no others than the address
//! alone would at each of its pages. TTL and TTL128 narrow nothing.

use super::{from, own, ASKED};
use super::{insist, reach, scoped, taken, ASID, SETTINGS, VMID, WRITE_BACK};
use crate::checker::Checker;
use crate::generate::commands::{Command, RANGED};
use crate::generate::ranges::Range;
use crate::generate::rows::{cd, cd_table, marked, ste, ste_block, Reach, Words};
use crate::generate::rows::{MARKS, STAGE1, STAGE2};
use crate::limits::{SPANS, UPPER};

/// A range of eight pages and what is around it.
const START: u64 = 0x40_0000;
const RANGE: (u64, u64) = (7, 0);
const PLACES: [(u64, u64); 6] = [
    (12, START - 0x1000),
    (12, START),
    (13, START + 0x6000),
    (12, START + 0x8000),
    (21, START),
    (12, START | UPPER),
];

const ASID16: u64 = 1 << 2;
const VMID16: u64 = 1 << 3;
const STREAM: u64 = 0x77;

pub fn sweeps(checker: &mut Checker) {
    checker.phase("ranges: over every form of row");
    let rows = rows();
    for (command, features) in commands() {
        for features in features {
            scoped(checker, &rows, command, features);
            for &row in &rows {
                scoped(checker, &[row], command, features);
            }
        }
    }
    checker.phase("ranges: ASIDs and VMIDs that are too wide");
    wide(checker);
    checker.phase("ranges: every level hint");
    for (code, features) in ASKED {
        for tg in 1..4 {
            hinted(checker, (code, features), tg);
        }
    }
}

/// Guests' rows of two VMIDs and ASIDs, global and not, of either stage and level;
/// the hypervisor's of both sorts; and rows of no stage.
fn rows() -> Vec<Words> {
    let mut rows = Vec::new();
    for (span, page) in PLACES {
        for number in 0..8 {
            let of = Reach {
                vmid: VMID + (number & 1),
                asid: ASID + (number >> 1 & 1),
                global: number & 4 != 0,
                ..reach(STAGE1, span, page)
            };
            rows.extend([of.page(0, WRITE_BACK), of.table()]);
            if of.vmid == VMID {
                let own = [of.page(0, WRITE_BACK), of.table()];
                rows.extend(
                    own.iter()
                        .flat_map(|&row| MARKS.map(|mark| marked(row, mark))),
                );
            }
            let second = Reach { kind: STAGE2, ..of };
            if page < UPPER && number < 2 {
                rows.extend([second.page(0, WRITE_BACK), second.table()]);
            }
        }
    }
    rows.extend([ste(STREAM, VMID, 7, 0), ste_block(STREAM, 6)]);
    rows.extend([cd(STREAM, 0, ASID), cd_table(STREAM)]);
    rows
}

/// Each code with Leaf and without, for the VMID and ASID and for others, in both
/// halves; with every feature at both settings.
fn commands() -> Vec<(Command, [u64; 2])> {
    let (num, scale) = RANGE;
    let range = Range::new(1, num, scale);
    let mut commands = Vec::new();
    for code in RANGED {
        for (vmid, asid) in [(0, 0), (1, 0), (0, 1), (2, 2)] {
            let fields = match code {
                0x12 => vmid << 32 | asid << 48,
                0x22 => asid << 48,
                0x23 => 0,
                _ => vmid << 32,
            };
            for start in [START, START | UPPER, START + 0x20_0000] {
                for leaf in 0..2 {
                    let (low, high) = range.over(from(code, start));
                    commands.push(((low + fields, high | leaf), SETTINGS));
                }
            }
        }
    }
    commands
}

/// Each upper bit of the ASID and of the VMID, with their features and without.
fn wide(checker: &mut Checker) {
    let (num, scale) = RANGE;
    for bit in 8..16 {
        for (code, features) in ASKED {
            let range = Range::new(1 + bit % 3, num, scale);
            let (low, high) = range.over(from(code, START));
            let (vmid, asid) = (1 << (32 + bit), 1 << (48 + bit));
            let others = match code {
                0x12 => vec![vmid, asid, vmid | asid],
                0x22 => vec![asid],
                0x23 => vec![],
                _ => vec![vmid],
            };
            for upper in others {
                let mut rows = rows();
                rows.extend(rows.clone().into_iter().map(|row| widened(row, upper)));
                for lost in [0, ASID16, VMID16, ASID16 | VMID16] {
                    scoped(checker, &rows, (low | upper, high), features & !lost);
                }
            }
        }
    }
}

/// A stage row with the upper bits of a command's VMID and ASID, if it may have them.
fn widened([word, one, two, three]: Words, upper: u64) -> Words {
    let (vmid, asid) = (upper >> 32 & 0xFFFF, upper >> 48);
    let wider = match (word >> 1 & 3, word >> 11 & 3) {
        (2, 0) => vmid << 16 | asid << 32,
        (2, 2) => asid << 32,
        (3, _) => vmid << 16,
        _ => 0,
    };
    [word | wider, one, two, three]
}

const HINT: &str = "a level hint makes a difference to what a range takes";

/// The same range at every level that is legal, over rows of either level and of
/// every span, from an address that is a multiple of all and from one of none.
fn hinted(checker: &mut Checker, (code, features): (u64, u64), tg: u64) {
    let base = 1 << 48;
    let mut rows = Vec::new();
    for span in SPANS {
        for last in [true, false] {
            rows.extend(own(code, features, span, base, last));
            rows.extend(own(code, features, span, base + (1 << span), last));
        }
    }
    for (num, scale) in [(0, 0), (1, 0), (3, 2), (0, 9), (31, 12), (31, 31)] {
        for start in [base, base + 0x1_0000, base + 0x21_7000] {
            let plain = Range::new(tg, num, scale);
            let command = plain.over(from(code, start));
            let (right, _) = taken(checker, &rows, command, features);
            for hint in 0..8 {
                let (ttl, ttl128) = (hint >> 1, hint & 1);
                let command = Range {
                    ttl,
                    ttl128,
                    ..plain
                }
                .over(from(code, start));
                scoped(checker, &rows, command, features);
                let (gone, [_, consumed, ..]) = taken(checker, &rows, command, features);
                let met = consumed == 0 || gone == right;
                insist(checker, met, HINT, &rows, (command, features));
            }
        }
    }
}
