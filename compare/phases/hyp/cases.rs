//! Document 02's sentences about the hypervisor's rows and the commands of 4.4.2,
//! with words and answers written out; they hold the model to the papers as well as
//! the unit.

use super::waiting;
use crate::call::{Asked, Call};
use crate::checker::Checker;
use crate::generate::commands::Command;
use crate::generate::images::with_rows;
use crate::generate::rows::Words;
use crate::phases::cases::{expect, one};
use crate::phases::upper::cases::either;

const EMPTY: Words = [0; 4];

/// Word 0 of stage 1 rows of span 12: last-level and not; a guest's, EL2, EL2-E2H.
const PAGE: u64 = 0x018D;
const TABLE: u64 = 0x0185;
const EL2: u64 = 0x098D;
const EL2_TABLE: u64 = 0x0985;
const E2H: u64 = 0x118D;
const E2H_TABLE: u64 = 0x1185;
const PAGE_2: u64 = 0x018F;

const GLOBAL: u64 = 1 << 4;
const VMID: u64 = 1 << 16;
/// ASID 7, in word 0 and in a command.
const ASID: u64 = 7 << 32;
const OF_7: u64 = 7 << 48;
const TOP: u64 = 0xFFFF_FFFF_FFFF_F000;

/// Features: all with Hyp, and with E2H set too; the four of document 01.
const HYP: u64 = 0x1F;
const SET: u64 = 0x9F;
const FOUR: u64 = 0x0F;

pub fn cases(checker: &mut Checker) {
    checker.phase("document 02's hypervisor");
    formed(checker);
    illegal(checker);
    reserved(checker);
    removed(checker);
    by_address(checker);
    spared(checker);
    wide(checker);
    looked_up(checker);
    filled(checker);
    any_features(checker);
}

/// Never both marks; VMID 0; ASID and global with EL2-E2H only; on stage 1 only, and
/// by the rule of stage 1.
fn formed(checker: &mut Checker) {
    for (word, accepted) in [
        (EL2, true),
        (EL2_TABLE, true),
        (E2H, true),
        (E2H_TABLE, true),
        (E2H | ASID, true),
        (E2H | GLOBAL, true),
        (E2H_TABLE | ASID | GLOBAL, true),
        (E2H | 0xFFFF << 32, true),
        (EL2 | E2H, false),
        (EL2_TABLE | E2H_TABLE, false),
        (EL2 | E2H | ASID, false),
        (EL2 | VMID, false),
        (EL2_TABLE | 1 << 31, false),
        (E2H | VMID, false),
        (E2H_TABLE | 1 << 31, false),
        (E2H | VMID | ASID, false),
        (EL2 | ASID, false),
        (EL2_TABLE | 1 << 47, false),
        (EL2 | GLOBAL, false),
        (EL2_TABLE | GLOBAL, false),
        (EL2 & !1, false),
        (E2H | 1 << 13, false),
    ] {
        either(checker, [word, 0, 0, 0], accepted);
        either(checker, [word, 0, TOP, 0], accepted);
    }
    other_parts(checker);
    other_kinds(checker);
}

/// Span, addresses and attributes, as in any row of stage 1.
fn other_parts(checker: &mut Checker) {
    for (word, input, output, accepted) in [
        (EL2, 0x1000, 0x2000, true),
        (E2H | 0x0FC_F << 48, TOP, 0x2000, true),
        (E2H | 0x004 << 48, 0, 0, false),
        (EL2, 0x800, 0, false),
        (E2H, 1 << 52, 0, false),
        (EL2, 0, 1 << 52, false),
        (EL2_TABLE, 0, 0x2000, false),
        (E2H_TABLE | 0x1 << 48, 0, 0, false),
    ] {
        either(checker, [word, 0, input, output], accepted);
    }
    either(checker, [EL2, 1, 0, 0], false);
}

/// STE, CD and stage 2 rows have no mark.
fn other_kinds(checker: &mut Checker) {
    for mark in [1 << 11, 1 << 12, 3 << 11] {
        either(checker, [0x09 | mark, 5 | 4 << 52, 0, 0], false);
        either(checker, [0xC1 | mark, 0x40, 0, 0], false);
        either(checker, [0x0B | mark, 5, 0, 0], false);
        either(checker, [0x03 | mark, 5, 0, 0], false);
        either(checker, [PAGE_2 | mark, 0, 0, 0], false);
        either(checker, [0x187 | mark, 0, 0, 0], false);
    }
}

/// Without Hyp or S1P they are illegal, and for that reason whatever else is wrong.
fn illegal(checker: &mut Checker) {
    let rows = [[EL2, 0, 0, 0], [E2H, 0, 0, 0]];
    for code in [0x20, 0x21, 0x22, 0x23] {
        for (low, features, reason) in [
            (code, FOUR, 2),
            (code, 0x8F, 2),
            (code, 0x1E, 2),
            (code, 0x9E, 2),
            (code, 0x00, 2),
            (code | 1 << 32, FOUR, 2),
            (code | 1 << 8, 0x1E, 2),
            (code | 1 << 32, HYP, 3),
            (code | 1 << 47, SET, 3),
            (code | 1 << 8, HYP, 3),
            (code | 1 << 31, SET, 3),
        ] {
            let words = [3, 0, 1, 0, 0, reason, 0, 0];
            one(checker, &rows, (low, 0), features, &words);
        }
        // Nothing but Hyp and S1P is needed.
        one(checker, &[EMPTY], (code, 0), 0x11, &[2, 1, 1, 0, 0]);
    }
    // Others of Arm's stay unknown.
    for code in [0x18, 0x1A, 0x24, 0x50, 0x53] {
        let words = [3, 0, 1, 0, 0, 1, 0, 0];
        one(checker, &rows, (code, 0), SET, &words);
    }
}

/// What each of them has: 20 nothing, 21 an ASID, 22 an ASID, Leaf and address, 23
/// Leaf and address. Without RIL they have none of NUM, SCALE, TG, TTL and TTL128.
fn reserved(checker: &mut Checker) {
    let (leaf, page) = (1, 1 << 12);
    for (command, legal) in [
        ((0x20 | OF_7, 0), false),
        ((0x20, leaf), false),
        ((0x20, page), false),
        ((0x20, 1 << 63), false),
        ((0x21 | OF_7, 0), true),
        ((0x21, leaf), false),
        ((0x21, page), false),
        ((0x22 | OF_7, leaf | TOP), true),
        ((0x22, 1 << 1), false),
        ((0x22, 1 << 7), false),
        ((0x22, 1 << 8), false),
        ((0x22, 1 << 10), false),
        ((0x22 | 1 << 12, 0), false),
        ((0x22 | 1 << 20, 0), false),
        ((0x23, leaf | TOP), true),
        ((0x23 | OF_7, 0), false),
        ((0x23 | 1 << 63, page), false),
        ((0x23, 1 << 11), false),
        ((0x23 | 1 << 16, 0), false),
    ] {
        for features in [HYP, SET] {
            let words: &[u64] = match legal {
                true => &[2, 1, 1, 0, 0, 0, 0, 0],
                false => &[3, 0, 1, 0, 0, 3, 0, 0],
            };
            one(checker, &[EMPTY], command, features, words);
        }
    }
}

/// A run over one command, which removes exactly the rows with these numbers.
pub fn takes(
    checker: &mut Checker,
    rows: &[Words],
    command: Command,
    features: u64,
    gone: &[usize],
) {
    let removed = gone.len() as u64;
    one(
        checker,
        rows,
        command,
        features,
        &[2, 1, 1 + removed, removed, 0],
    );
    for (number, &row) in rows.iter().enumerate() {
        let removed = u64::from(gone.contains(&number));
        let words = [2, 1, 1 + removed, removed, 0];
        one(checker, &[row], command, features, &words);
    }
}

/// The rows of the cases below, all at address 0: guests' first, then EL2, then
/// EL2-E2H without ASID, with it, global with another, and tables; stage 2.
fn rows() -> Vec<Words> {
    let words = [
        PAGE,
        TABLE | ASID,
        PAGE | GLOBAL,
        EL2,
        EL2_TABLE,
        E2H,
        E2H | ASID,
        E2H_TABLE | ASID,
        E2H | GLOBAL | 8 << 32,
        E2H_TABLE | GLOBAL | ASID,
        PAGE_2,
    ];
    words.map(|word| [word, 0, 0, 0]).into()
}

/// 20 takes both sorts and 21 those of the ASID that aren't global; neither looks at
/// E2H.
fn removed(checker: &mut Checker) {
    for features in [HYP, SET] {
        let all: Vec<usize> = (3..10).collect();
        takes(checker, &rows(), (0x20, 0), features, &all);
        takes(checker, &rows(), (0x21, 0), features, &[5]);
        takes(checker, &rows(), (0x21 | OF_7, 0), features, &[6, 7]);
        takes(checker, &rows(), (0x21 | 8 << 48, 0), features, &[]);
    }
}

/// 22 and 23 go by E2H. Leaf spares what isn't last-level.
fn by_address(checker: &mut Checker) {
    for (low, high, features, gone) in [
        (0x22, 0, HYP, &[3, 4][..]),
        (0x22 | OF_7, 0, HYP, &[3, 4]),
        (0x22 | OF_7, 1, HYP, &[3]),
        (0x23, 0, HYP, &[3, 4]),
        (0x23, 1, HYP, &[3]),
        (0x22, 0, SET, &[5, 8, 9]),
        (0x22 | OF_7, 0, SET, &[6, 7, 8, 9]),
        (0x22 | OF_7, 1, SET, &[6, 8]),
        (0x22 | 8 << 48, 0, SET, &[8, 9]),
        (0x23, 0, SET, &[5, 6, 7, 8, 9]),
        (0x23, 1, SET, &[5, 6, 8]),
        (0x22, 0x1000, HYP, &[]),
        (0x22, 0x1000, SET, &[]),
        (0x23, TOP, HYP, &[]),
        (0x23, TOP, SET, &[]),
    ] {
        takes(checker, &rows(), (low, high), features, gone);
    }
    // The full address is compared, as 12 does.
    let rows: Vec<Words> = [0, 0x1000, 0xFFF0_0000_0000_0000, TOP]
        .into_iter()
        .flat_map(|input| [[EL2, 0, input, 0], [E2H, 0, input, 0]])
        .collect();
    for (place, address) in [0, 0x1000, 0xFFF0_0000_0000_0000, TOP]
        .into_iter()
        .enumerate()
    {
        for code in [0x22, 0x23] {
            takes(checker, &rows, (code, address), HYP, &[2 * place]);
            takes(checker, &rows, (code, address), SET, &[2 * place + 1]);
            takes(checker, &rows, (code, address ^ 1 << 52), SET, &[]);
            takes(checker, &rows, (code, address ^ 1 << 63), HYP, &[]);
        }
    }
}

/// Marked rows stay under 10 to 13, 28 and 30, with Hyp or without; 2A is about stage 2.
fn spared(checker: &mut Checker) {
    for features in [FOUR, 0x8F, HYP, SET] {
        for (command, gone) in [
            ((0x10, 0), &[0, 1, 2][..]),
            ((0x11, 0), &[0]),
            ((0x11 | OF_7, 0), &[1]),
            ((0x12, 0), &[0, 2]),
            ((0x12 | OF_7, 0), &[1, 2]),
            ((0x13, 0), &[0, 1, 2]),
            ((0x13, 1), &[0, 2]),
            ((0x28, 0), &[0, 1, 2, 10]),
            ((0x2A, 0), &[10]),
            ((0x30, 0), &[0, 1, 2, 10]),
            ((0x04, 31), &[]),
        ] {
            takes(checker, &rows(), command, features, gone);
        }
    }
}

/// An ASID of more than eight bits without ASID16: legal, and removes nothing, also
/// where the ASID wouldn't be compared.
fn wide(checker: &mut Checker) {
    let wide = 0x100 << 48;
    let rows = [
        [EL2, 0, 0, 0],
        [E2H, 0, 0, 0],
        [E2H | 0x100 << 32, 0, 0, 0],
        [E2H | GLOBAL, 0, 0, 0],
    ];
    for (command, features, gone) in [
        ((0x21 | wide, 0), HYP, &[2][..]),
        ((0x21 | wide, 0), 0x1B, &[]),
        ((0x21 | wide, 0), 0x9B, &[]),
        ((0x21 | 1 << 63, 0), 0x9B, &[]),
        ((0x22 | wide, 0), HYP, &[0]),
        ((0x22 | wide, 0), SET, &[2, 3]),
        ((0x22 | wide, 0), 0x1B, &[]),
        ((0x22 | wide, 0), 0x9B, &[]),
        ((0x22 | 1 << 63, 0), 0x1B, &[]),
        ((0x22, 0), 0x1B, &[0]),
        ((0x22, 0), 0x9B, &[1, 3]),
        ((0x23, 0), 0x1B, &[0]),
        ((0x20, 0), 0x1B, &[0, 1, 2, 3]),
    ] {
        takes(checker, &rows, command, features, gone);
    }
}

/// Transactions look at unmarked rows only: marked ones answer nothing and hide
/// nothing, wherever they stand.
fn looked_up(checker: &mut Checker) {
    let chain = [
        [0x0020_0000_0000_0009, 5 | 5 << 52, 0, 0],
        [0x0B | ASID, 5, 0, 0],
    ];
    let asked = Call::Translate(Asked {
        stream: 5,
        substream: 0,
        address: 0x234,
        how: 0,
        memattr: 0,
        sh: 0,
        hints: 0,
    });
    for word in [EL2, E2H | ASID, E2H | GLOBAL, E2H] {
        let ours = [[word, 0, 0, 0x7000]];
        let guest = [[PAGE | ASID, 0, 0, 0x1000]];
        for (rows, words) in [
            ([&chain[..], &ours].concat(), [4, 0]),
            ([&ours[..], &chain].concat(), [4, 0]),
            ([&ours[..], &chain, &guest].concat(), [0, 0x1234]),
            ([&chain[..], &guest, &ours].concat(), [0, 0x1234]),
        ] {
            let mut kept = with_rows(waiting(0, 0), &rows);
            expect(checker, &mut kept, asked, 0, &words);
        }
    }
}

/// 11 looks at unmarked rows only.
fn filled(checker: &mut Checker) {
    for (old, new, number) in [
        (EL2, EL2, 0),
        (E2H, E2H, 0),
        (E2H | GLOBAL, E2H | ASID, 0),
        (EL2, E2H, 0),
        (E2H | GLOBAL, EL2, 0),
        (PAGE, EL2, 0),
        (PAGE, E2H, 0),
        (PAGE | GLOBAL, E2H | GLOBAL, 0),
        (EL2, PAGE, 0),
        (E2H, PAGE, 0),
        (E2H | GLOBAL, PAGE | GLOBAL, 0),
        (PAGE, PAGE | GLOBAL, 11),
        (EL2, EL2 | VMID, 9),
    ] {
        for (rows, row) in [([[old, 0, 0, 0], EMPTY], 1), ([EMPTY, [old, 0, 0, 0]], 0)] {
            let mut kept = with_rows(waiting(0, 0), &rows);
            let call = Call::Fill {
                row,
                words: [new, 0, 0, 0],
                allowance: 4,
            };
            expect(checker, &mut kept, call, number, &[]);
        }
    }
}

/// Each bit of the features alone and missing: Hyp is bit 4 and E2H bit 7, and bits
/// that nobody has yet change nothing. Marked rows are accepted under any.
fn any_features(checker: &mut Checker) {
    let rows = [[EL2, 0, 0, 0], [E2H, 0, 0, 0]];
    for bit in (4..64).map(|bit| 1 << bit) {
        let [all, page]: [&[usize]; 2] = match bit {
            0x10 => [&[0, 1], &[0]],
            _ => [&[], &[]],
        };
        let end: &[u64] = &[3, 0, 1, 0, 0, 2, 0, 0];
        for (command, gone) in [((0x20, 0), all), ((0x22, 0), page)] {
            match gone {
                [] => one(checker, &rows, command, FOUR | bit, end),
                _ => takes(checker, &rows, command, FOUR | bit, gone),
            }
        }
        let other: &[usize] = if bit == 0x80 { &[1] } else { &[0] };
        takes(checker, &rows, (0x23, 0), HYP | bit, other);
    }
    one(checker, &rows, (0x46, 0), 0, &[2, 1, 1, 0, 0]);
}
