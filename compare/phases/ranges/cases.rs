//! Document 02's sentences about ranges and those of Arm's 4.4.1.1, with words and
//! answers written out; they hold the model to the papers as well as the unit.

use crate::checker::Checker;
use crate::generate::commands::Command;
use crate::generate::rows::Words;
use crate::phases::cases::one;
use crate::phases::hyp::cases::takes;

/// Word 0 of stage 1 rows: of 4 KiB, last-level and not; of 16 KiB, 2 MiB and 2^48.
const PAGE: u64 = 0x018D;
const TABLE: u64 = 0x0185;
const PAGE_16K: u64 = 0x01CD;
const BLOCK: u64 = 0x02AD;
const BLOCK_TABLE: u64 = 0x02A5;
const WIDEST: u64 = 0x060D;
/// Of the hypervisor's; of stage 2.
const EL2: u64 = 0x098D;
const E2H: u64 = 0x118D;
const PAGE_2: u64 = 0x018F;

/// The fields' places, in the low and in the high word.
const NUM: u64 = 1 << 12;
const SCALE: u64 = 1 << 20;
const TTL128: u64 = 1 << 7;
const TTL: u64 = 1 << 8;
const TG: u64 = 1 << 10;

/// Features: all; without RIL; E2H as well.
const ALL: u64 = 0x3F;
const NO_RIL: u64 = 0x1F;
const SET: u64 = 0xBF;

const LAST_LOWER: u64 = 0x000F_FFFF_FFFF_F000;
const FIRST_UPPER: u64 = 0xFFF0_0000_0000_0000;
const LAST: u64 = 0xFFFF_FFFF_FFFF_F000;

pub fn cases(checker: &mut Checker) {
    checker.phase("document 02's ranges");
    without(checker);
    reserved(checker);
    bad(checker);
    legal(checker);
    others(checker);
    lengths(checker);
    rounded(checker);
    met(checker);
    top(checker);
    largest(checker);
    hints(checker);
    sorts(checker);
}

const CODES: [u64; 5] = [0x12, 0x13, 0x22, 0x23, 0x2A];

/// A command alone over an empty row: legal, or the reason.
fn told(checker: &mut Checker, command: Command, features: u64, reason: u64) {
    let words = match reason {
        0 => [2, 1, 1, 0, 0, 0, 0, 0],
        _ => [3, 0, 1, 0, 0, reason, 0, 0],
    };
    one(checker, &[[0; 4]], command, features, &words);
}

/// Without RIL the fields stay Reserved, whatever the others are.
fn without(checker: &mut Checker) {
    for code in CODES {
        for (low, high) in [
            (NUM, 0),
            (NUM << 4, 0),
            (SCALE, 0),
            (SCALE << 4, 0),
            (0, TTL128),
            (0, TTL),
            (0, 2 * TTL),
            (0, TG),
            (0, 2 * TG),
            (NUM, TG),
            (SCALE, 3 * TG | 3 * TTL | TTL128),
        ] {
            told(checker, (code | low, high), NO_RIL, 3);
            // No feature but RIL makes up for it.
            told(checker, (code | low, high), !0x20, 3);
        }
        told(checker, (code, 0), NO_RIL, 0);
        // A missing feature comes first.
        told(checker, (code | NUM, TG), 0x20, 2);
        told(checker, (code, TG), 0x20, 2);
        told(checker, (code, TTL), 0, 2);
    }
    told(checker, (0x22 | NUM, TG), 0x2F, 2);
    told(checker, (0x23 | NUM, TG), 0x3E, 2);
    told(checker, (0x12 | NUM, TG), 0x3E, 2);
    told(checker, (0x2A | NUM, TG), 0x3D, 2);
}

/// TG 0 has no other field, TTL 0 no TTL128; and bits that nobody has.
fn reserved(checker: &mut Checker) {
    for code in CODES {
        for (low, high) in [
            (NUM, 0),
            (NUM << 4, 0),
            (SCALE, 0),
            (SCALE << 4, 0),
            (0, TTL128),
            (0, TTL),
            (0, 3 * TTL),
            (NUM | SCALE, 3 * TTL | TTL128),
            (NUM, TG | TTL128),
            (SCALE, 2 * TG | TTL128),
            (0, TG | TTL128),
            (0, 2 * TG | TTL128),
            (0, 3 * TG | TTL128),
        ] {
            told(checker, (code | low, high), ALL, 3);
        }
        let low = (8..12).chain(17..20).chain(25..32).map(|bit| (1 << bit, 0));
        let high = (1..7).map(|bit| (0, 1 << bit));
        for (low, high) in low.chain(high) {
            for tg in [TG, 2 * TG, 3 * TG] {
                told(checker, (code | low | NUM, high | tg), ALL, 3);
                told(checker, (code | low, high | tg), SET, 3);
            }
        }
    }
    // 2A has 52 bits of address, with a range too.
    told(checker, (0x2A | NUM, TG | 1 << 52), ALL, 3);
    told(checker, (0x2A | NUM, TG | 1 << 63), ALL, 3);
    told(checker, (0x2A | NUM, TG | LAST_LOWER), ALL, 0);
    told(checker, (0x12 | NUM, TG | 1 << 52), ALL, 0);
    // A VMID without S2P, and where there is none.
    told(checker, (0x12 | NUM | 1 << 32, TG), 0x3D, 3);
    told(checker, (0x22 | NUM | 1 << 32, TG), ALL, 3);
    told(checker, (0x23 | NUM | 1 << 48, TG), SET, 3);
}

/// NUM 0, SCALE 0 and TTL 0; with 16 KiB TTL 1 is read as TTL 0.
fn bad(checker: &mut Checker) {
    for code in CODES {
        for high in [
            TG,
            2 * TG,
            3 * TG,
            2 * TG | TTL,
            2 * TG | TTL | TTL128,
            TG | 1,
            3 * TG | 1 << 30,
        ] {
            told(checker, (code, high), ALL, 4);
            told(checker, (code, high), SET, 4);
            told(checker, (code, high), NO_RIL, 3);
        }
    }
    // Too wide an ASID doesn't make it legal.
    told(checker, (0x12 | 0x100 << 48, TG), 0x3B, 4);
}

fn legal(checker: &mut Checker) {
    for code in CODES {
        for (low, high) in [
            (NUM, TG),
            (NUM, 2 * TG),
            (NUM, 3 * TG),
            (SCALE, TG),
            (SCALE, 2 * TG),
            (SCALE, 3 * TG),
            (0, TG | TTL),
            (0, TG | 2 * TTL),
            (0, TG | 3 * TTL),
            (0, 2 * TG | 2 * TTL),
            (0, 2 * TG | 3 * TTL),
            (0, 3 * TG | TTL),
            (0, 3 * TG | 2 * TTL),
            (0, 3 * TG | 3 * TTL),
            (NUM, 2 * TG | TTL),
            (SCALE, 2 * TG | TTL | TTL128),
            (0, TG | TTL | TTL128),
            (0, 3 * TG | 3 * TTL | TTL128),
            (31 * NUM | 31 * SCALE, 3 * TG | 3 * TTL | TTL128 | 1),
        ] {
            told(checker, (code | low, high), ALL, 0);
            told(checker, (code | low, high), SET, 0);
        }
    }
    // RIL and what the code itself wants are all that is needed.
    told(checker, (0x12 | NUM, TG), 0x21, 0);
    told(checker, (0x2A | NUM, TG), 0x22, 0);
    told(checker, (0x22 | NUM, TG), 0x31, 0);
}

/// No other code has a range.
fn others(checker: &mut Checker) {
    for code in [0x03, 0x06, 0x10, 0x11, 0x20, 0x21, 0x28, 0x30] {
        told(checker, (code | NUM, TG), ALL, 3);
        told(checker, (code, TG), ALL, 3);
        told(checker, (code | SCALE, 0), ALL, 3);
    }
    told(checker, (0x04, TG), ALL, 3);
    // Bits 16:12 of 05 are a SubstreamID's, and 46 doesn't look at 127:64.
    told(checker, (0x05 | NUM, 0), ALL, 0);
    told(checker, (0x05 | NUM, TG), ALL, 3);
    told(checker, (0x46, TG | TTL), ALL, 0);
}

/// Pages of stage 1 from an address on.
fn pages(first: u64, count: u64) -> Vec<Words> {
    (0..count)
        .map(|page| [PAGE, 0, first + (page << 12), 0])
        .collect()
}

fn numbers(numbers: std::ops::Range<usize>) -> Vec<usize> {
    numbers.collect()
}

/// (NUM + 1) times 2^SCALE granules. TG 0 keeps the single address.
fn lengths(checker: &mut Checker) {
    let rows = pages(0xF_E000, 48);
    for (low, high, gone) in [
        (0, 0, 2..3),
        (0, TG | 3 * TTL, 2..3),
        (NUM, TG, 2..4),
        (2 * NUM, TG, 2..5),
        (31 * NUM, TG, 2..34),
        (SCALE, TG, 2..4),
        (2 * SCALE, TG, 2..6),
        (5 * SCALE, TG, 2..34),
        (NUM | SCALE, TG, 2..6),
        (2 * NUM | 2 * SCALE, TG, 2..14),
        (4 * NUM | 3 * SCALE, TG, 2..42),
        (0, 2 * TG | 2 * TTL, 2..6),
        (NUM, 2 * TG, 2..10),
        (2 * NUM | SCALE, 2 * TG, 2..26),
        (0, 3 * TG | TTL, 2..18),
        (NUM, 3 * TG, 2..34),
        (SCALE, 3 * TG, 2..34),
        (NUM | SCALE, 3 * TG, 2..48),
    ] {
        let command = (0x12 | low, high | 0x10_0000);
        takes(checker, &rows, command, ALL, &numbers(gone));
    }
}

/// The start is the address rounded down to a granule, and the length counts from
/// there.
fn rounded(checker: &mut Checker) {
    let rows = pages(0x3_E000, 40);
    for (low, high, gone) in [
        (0, TG | TTL | 0x4_1000, 3..4),
        (0, 2 * TG | 2 * TTL | 0x4_1000, 2..6),
        (0, 2 * TG | 2 * TTL | 0x4_3000, 2..6),
        (0, 2 * TG | 2 * TTL | 0x4_4000, 6..10),
        (NUM, 2 * TG | 0x4_3000, 2..10),
        (SCALE, 2 * TG | 0x4_7000, 6..14),
        (0, 3 * TG | TTL | 0x4_1000, 2..18),
        (0, 3 * TG | TTL | 0x4_F000, 2..18),
        (0, 3 * TG | TTL | 0x5_0000, 18..34),
        (0, 3 * TG | TTL | 0x3_F000, 0..2),
        (NUM, 3 * TG | 0x4_8000, 2..34),
    ] {
        takes(checker, &rows, (0x13 | low, high), ALL, &numbers(gone));
    }
    // A single address stands for its page only.
    takes(checker, &rows, (0x13, 0x4_1000), ALL, &[3]);
}

/// Rows that meet the range, by whatever part of theirs: they may be larger, smaller, or
/// reach in from either side.
fn met(checker: &mut Checker) {
    let rows = [
        [BLOCK, 0, 0x20_0000, 0],
        [BLOCK_TABLE, 0, 0x20_0000, 0],
        [BLOCK, 0, 0x40_0000, 0],
        [PAGE_16K, 0, 0x3F_C000, 0],
        [PAGE, 0, 0x3F_F000, 0],
        [PAGE, 0, 0x40_0000, 0],
        [TABLE, 0, 0x40_1000, 0],
        [WIDEST, 0, 0, 0],
    ];
    let one = TG | 3 * TTL;
    for (low, high, gone) in [
        // One page: within the blocks, at their last and first.
        (0, one | 0x20_0000, &[0, 1, 7][..]),
        (0, one | 0x3F_F000, &[0, 1, 3, 4, 7]),
        (0, one | 0x40_0000, &[2, 5, 7]),
        (0, one | 0x1F_F000, &[7]),
        (0, one | 0x60_0000, &[7]),
        // Ends where a block begins; one page further.
        (15 * NUM, TG | 0x1F_0000, &[7]),
        (15 * NUM, TG | 0x1F_1000, &[0, 1, 7]),
        // Over the edge of two.
        (NUM, TG | 0x3F_F000, &[0, 1, 2, 3, 4, 5, 7]),
        (NUM, TG | 0x3F_B000, &[0, 1, 3, 7]),
        (NUM, TG | 0x3F_A000, &[0, 1, 7]),
        (NUM, TG | 0x40_0000, &[2, 5, 6, 7]),
        // Larger than all but one; larger than all.
        (9 * SCALE, TG | 0x40_0000, &[2, 5, 6, 7]),
        (10 * SCALE, TG | 0x20_0000, &[0, 1, 2, 3, 4, 5, 6, 7]),
        (31 * NUM | 31 * SCALE, TG, &[0, 1, 2, 3, 4, 5, 6, 7]),
        // Leaf spares what isn't last-level.
        (NUM, TG | 0x3F_F000 | 1, &[0, 2, 3, 4, 5, 7]),
        (NUM, TG | 0x40_0000 | 1, &[2, 5, 7]),
    ] {
        takes(checker, &rows, (0x13 | low, high), ALL, gone);
    }
}

/// Ranges that reach the top of the 64-bit space.
fn top(checker: &mut Checker) {
    let rows = [
        [PAGE, 0, 0, 0],
        [PAGE, 0, LAST, 0],
        [PAGE, 0, LAST - 0x1000, 0],
        [WIDEST, 0, 0xFFFF_0000_0000_0000, 0],
        [PAGE, 0, FIRST_UPPER, 0],
        [BLOCK, 0, 0xFFFF_FFFF_FFE0_0000, 0],
        [PAGE, 0, 0xFFFF_FFFF_FFFF_0000, 0],
    ];
    for code in [0x12, 0x13] {
        for (low, high, gone) in [
            (0, TG | 3 * TTL | LAST, &[1, 3, 5][..]),
            (NUM, TG | LAST, &[1, 3, 5]),
            (NUM, TG | (LAST - 0x1000), &[1, 2, 3, 5]),
            (2 * NUM, TG | (LAST - 0x1000), &[1, 2, 3, 5]),
            (31 * NUM | 31 * SCALE, TG | LAST, &[1, 3, 5]),
            (31 * NUM | 31 * SCALE, 3 * TG | LAST, &[1, 2, 3, 5, 6]),
            (0, 3 * TG | TTL | LAST, &[1, 2, 3, 5, 6]),
            (0, 2 * TG | 2 * TTL | LAST, &[1, 2, 3, 5]),
            (
                31 * NUM | 31 * SCALE,
                3 * TG | FIRST_UPPER,
                &[1, 2, 3, 4, 5, 6],
            ),
            (31 * NUM | 31 * SCALE, TG | FIRST_UPPER, &[4]),
            (0, 3 * TG | TTL, &[0]),
        ] {
            takes(checker, &rows, (code | low, high), ALL, gone);
        }
    }
}

/// NUM 31 and SCALE 31: 2^48, 2^50 and 2^52 bytes. 2A has Address[51:12].
fn largest(checker: &mut Checker) {
    let inputs = [
        0,
        (1 << 48) - 0x1000,
        1 << 48,
        (1 << 50) - 0x1000,
        1 << 50,
        LAST_LOWER,
    ];
    let low = 31 * NUM | 31 * SCALE;
    for (code, word) in [(0x12, PAGE), (0x13, PAGE), (0x2A, PAGE_2), (0x23, EL2)] {
        let rows = inputs.map(|input| [word, 0, input, 0]);
        takes(checker, &rows, (code | low, TG), ALL, &[0, 1]);
        takes(checker, &rows, (code | low, 2 * TG), ALL, &[0, 1, 2, 3]);
        takes(
            checker,
            &rows,
            (code | low, 3 * TG),
            ALL,
            &[0, 1, 2, 3, 4, 5],
        );
        takes(checker, &rows, (code | low, TG | LAST_LOWER), ALL, &[5]);
        takes(checker, &rows, (code | low, 3 * TG | LAST_LOWER), ALL, &[5]);
        takes(checker, &rows, (code | low, 3 * TG | 1 << 50), ALL, &[4, 5]);
    }
    // Behind 2^52 there are rows in the upper half only.
    let upper = [[PAGE, 0, FIRST_UPPER, 0], [PAGE, 0, LAST_LOWER, 0]];
    takes(
        checker,
        &upper,
        (0x12 | low, 3 * TG | LAST_LOWER),
        ALL,
        &[1],
    );
    let start = 0xFFEF_FFFF_FFFF_F000;
    takes(checker, &upper, (0x12 | NUM, TG | start), ALL, &[0]);
    takes(checker, &upper, (0x12, start), ALL, &[]);
}

/// TTL is a hint and narrows nothing, and neither does TTL128.
fn hints(checker: &mut Checker) {
    let rows = [
        [PAGE, 0, 0x40_0000, 0],
        [TABLE, 0, 0x40_0000, 0],
        [BLOCK, 0, 0x40_0000, 0],
        [BLOCK_TABLE, 0, 0x40_0000, 0],
        [WIDEST, 0, 0, 0],
        [PAGE, 0, 0x41_0000, 0],
    ];
    for tg in 1..4 {
        for ttl in 0..4 {
            for ttl128 in [0, TTL128] {
                if ttl == 0 && ttl128 != 0 {
                    continue;
                }
                let high = tg * TG | ttl * TTL | ttl128 | 0x40_0000;
                // Two granules of 64 KiB reach the last row.
                let (all, leaf): (&[usize], &[usize]) = match tg {
                    3 => (&[0, 1, 2, 3, 4, 5], &[0, 2, 4, 5]),
                    _ => (&[0, 1, 2, 3, 4], &[0, 2, 4]),
                };
                takes(checker, &rows, (0x13 | NUM, high), ALL, all);
                takes(checker, &rows, (0x13 | NUM, high | 1), ALL, leaf);
            }
        }
    }
}

/// VMID, ASID, global and E2H decide as without a range; too wide an ASID or VMID
/// removes nothing.
fn sorts(checker: &mut Checker) {
    let page = |word: u64| [word, 0, 0x1000, 0];
    let rows = [
        page(PAGE),
        page(PAGE | 7 << 32),
        page(PAGE | 7 << 32 | 1 << 4),
        page(PAGE | 1 << 16),
        page(EL2),
        page(E2H),
        page(E2H | 7 << 32),
        page(E2H | 7 << 32 | 1 << 4),
        page(PAGE_2),
        page(PAGE_2 | 1 << 16),
    ];
    let (range, asid, vmid, wide) = (3 * NUM, 7 << 48, 1 << 32, 0x100 << 48);
    for (low, features, gone) in [
        (0x12, ALL, &[0, 2][..]),
        (0x12 | asid, ALL, &[1, 2]),
        (0x12 | vmid, ALL, &[3]),
        (0x13, ALL, &[0, 1, 2]),
        (0x13 | vmid, SET, &[3]),
        (0x2A, ALL, &[8]),
        (0x2A | vmid, ALL, &[9]),
        (0x22, ALL, &[4]),
        (0x22 | asid, ALL, &[4]),
        (0x23, ALL, &[4]),
        (0x22, SET, &[5, 7]),
        (0x22 | asid, SET, &[6, 7]),
        (0x23, SET, &[5, 6, 7]),
        (0x12 | wide, ALL, &[2]),
        (0x12 | wide, 0x3B, &[]),
        (0x22 | wide, 0x3B, &[]),
        (0x22 | wide, 0xBB, &[]),
        (0x13 | 0x100 << 32, 0x37, &[]),
        (0x2A | 0x100 << 32, 0x37, &[]),
    ] {
        for high in [TG, TG | 1] {
            takes(checker, &rows, (low | range, high), features, gone);
        }
    }
}
