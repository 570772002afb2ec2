//! Document 02's sentences about the upper half, with words and answers written
//! out; they hold the model to the paper as well as the unit.

use super::{bytes, waiting, ALL};
use crate::call::{Asked, Call};
use crate::checker::Checker;
use crate::generate::images::with_rows;
use crate::generate::rows::Words;
use crate::model::control::Control;
use crate::phases::cases::{expect, one};
use crate::phases::limits::every_call;

const EMPTY_ROW: Words = [0; 4];

/// Word 0 of stage rows with nothing but their kind, level and span: stage 1
/// last-level and not, stage 2 last-level and not; spans 12 and 48.
const PAGE: u64 = 0x18D;
const TABLE: u64 = 0x185;
const PAGE_2: u64 = 0x18F;
const TABLE_2: u64 = 0x187;
const BLOCK: u64 = 0x60D;
const BLOCK_TABLE: u64 = 0x605;
const BLOCK_2: u64 = 0x60F;

/// First and last inputs of either half for a span of 4 KiB, and what is next to
/// them.
const LAST_LOWER: u64 = 0x000F_FFFF_FFFF_F000;
const NEITHER: [u64; 4] = [
    0x0010_0000_0000_0000,
    0x7FF0_0000_0000_0000,
    0x8000_0000_0000_0000,
    0xFFEF_FFFF_FFFF_F000,
];
const FIRST_UPPER: u64 = 0xFFF0_0000_0000_0000;
const LAST_UPPER: u64 = 0xFFFF_FFFF_FFFF_F000;

pub fn cases(checker: &mut Checker) {
    checker.phase("document 02's upper half");
    formed(checker);
    removed(checker);
    translated(checker);
}

/// Filled in, then as a row of a memory: carried out, or refused with 9 and 3. The
/// other calls see the row too, where each of them has something to do.
pub fn either(checker: &mut Checker, words: Words, accepted: bool) {
    let fill = Call::Fill {
        row: 0,
        words,
        allowance: 4,
    };
    let (filled, stood): (u64, u64) = if accepted { (0, 0) } else { (9, 3) };
    let mut kept = with_rows(waiting(0, 0), &[EMPTY_ROW]);
    expect(checker, &mut kept, fill, filled, &[]);
    let mut kept = with_rows(waiting(0, 0), &[words]);
    expect(checker, &mut kept, Call::State, stood, &[]);
    let busy = Control {
        err: 1,
        gerror: true,
        pending: true,
        ..waiting(0, 1)
    };
    let kept = with_rows(busy, &[EMPTY_ROW, words]);
    every_call(checker, &kept, &bytes(&[(0x46, 0)]));
}

/// For stage 1 bits 63:52 are all zero or all one, last-level or not, and the span
/// lies in one half; stage 2 and word 3 stay below 2^52.
fn formed(checker: &mut Checker) {
    for word in [PAGE, TABLE] {
        for input in [0, LAST_LOWER, FIRST_UPPER, LAST_UPPER] {
            either(checker, [word, 0, input, 0], true);
        }
        for input in NEITHER {
            either(checker, [word, 0, input, 0], false);
        }
        either(checker, [word, 0, FIRST_UPPER + 0x800, 0], false);
    }
    for word in [BLOCK, BLOCK_TABLE] {
        for (input, accepted) in [
            (0x000F_0000_0000_0000, true),
            (0x0010_0000_0000_0000, false),
            (0xFFEF_0000_0000_0000, false),
            (0xFFF0_0000_0000_0000, true),
            (0xFFFF_0000_0000_0000, true),
            (0xFFFF_8000_0000_0000, false),
            (LAST_UPPER, false),
        ] {
            either(checker, [word, 0, input, 0], accepted);
        }
    }
    for input in [FIRST_UPPER, LAST_UPPER] {
        either(checker, [PAGE_2, 0, input, 0], false);
        either(checker, [TABLE_2, 0, input, 0], false);
        either(checker, [PAGE, 0, input, input], false);
        either(checker, [PAGE, 0, 0, input], false);
        either(checker, [PAGE_2, 0, 0, input], false);
        either(checker, [PAGE, 0, input, LAST_LOWER], true);
    }
    for output in NEITHER {
        either(checker, [PAGE, 0, 0, output], false);
        either(checker, [PAGE_2, 0, 0, output], false);
    }
    either(checker, [PAGE_2, 0, LAST_LOWER, LAST_LOWER], true);
    either(checker, [BLOCK_2, 0, 0xFFFF_0000_0000_0000, 0], false);
}

const PLACES: [u64; 4] = [0, LAST_LOWER, FIRST_UPPER, LAST_UPPER];

/// Codes 12 and 13 compare the full address; 2A has bits 51:12 and is for stage 2.
fn removed(checker: &mut Checker) {
    let blocks = PLACES.map(|input| input >> 48 << 48);
    let rows = PLACES.map(|input| [PAGE, 0, input, 0]);
    let tables = PLACES.map(|input| [TABLE, 0, input, 0]);
    let widest = blocks.map(|input| [BLOCK, 0, input, 0]);
    let (taken, spared) = (&[2, 1, 2, 1, 0], &[2, 1, 1, 0, 0]);
    for code in [0x12, 0x13] {
        for address in PLACES {
            one(checker, &rows, (code, address), ALL, taken);
            one(checker, &widest, (code, address), ALL, taken);
            one(checker, &tables, (code, address), ALL, taken);
            // Leaf 1.
            one(checker, &tables, (code, address | 1), ALL, spared);
        }
        for address in NEITHER {
            one(checker, &rows, (code, address), ALL, spared);
            one(checker, &widest, (code, address), ALL, spared);
        }
    }
    for address in PLACES {
        // Another ASID.
        one(checker, &rows, (1 << 48 | 0x12, address), ALL, spared);
    }
    for code in [0x10, 0x11, 0x28, 0x30] {
        one(checker, &rows, (code, 0), ALL, &[2, 1, 5, 4, 0]);
    }
    for address in [0, LAST_LOWER] {
        one(checker, &rows, (0x2A, address), ALL, &[2, 1, 1, 0, 0]);
    }
    for address in [FIRST_UPPER, LAST_UPPER] {
        // A bit that 2A doesn't name.
        one(checker, &rows, (0x2A, address), ALL, &[3, 0, 1, 0, 0, 3, 0]);
    }
}

/// The first and last byte of each half are answered, and those next to them not.
/// The lowest and the highest row of all don't meet across 2^64.
fn translated(checker: &mut Checker) {
    let rows = |inputs: [u64; 2]| {
        let [low, high] = inputs;
        [
            // STE of stream 5, Config 5; its CD; two rows of another ASID.
            [0x0020_0000_0000_0009, 5 | 5 << 52, 0, 0],
            [0x0B, 5, 0, 0],
            [PAGE | 1 << 32, 0, low, 0x3000],
            [PAGE | 1 << 32, 0, high, 0x4000],
            [PAGE, 0, low, 0x1000],
            [PAGE, 0, high, 0x2000],
        ]
    };
    let (lower, upper) = ([0, LAST_LOWER], [FIRST_UPPER, LAST_UPPER]);
    for (inputs, address, words) in [
        (lower, 0, [0, 0x1000]),
        (lower, 0x000F_FFFF_FFFF_FFFF, [0, 0x2FFF]),
        (lower, 0x0010_0000_0000_0000, [4, 0]),
        (lower, FIRST_UPPER, [4, 0]),
        (lower, u64::MAX, [4, 0]),
        (upper, 0xFFEF_FFFF_FFFF_FFFF, [4, 0]),
        (upper, FIRST_UPPER, [0, 0x1000]),
        (upper, 0xFFF0_0000_0000_0FFF, [0, 0x1FFF]),
        (upper, 0xFFF0_0000_0000_1000, [4, 0]),
        (upper, LAST_UPPER, [0, 0x2000]),
        (upper, u64::MAX, [0, 0x2FFF]),
        (upper, 0, [4, 0]),
        (upper, 0x0FF0_0000_0000_0000, [4, 0]),
        (upper, 0x7FFF_FFFF_FFFF_FFFF, [4, 0]),
    ] {
        asked(checker, &rows(inputs), address, &words);
    }
    passed_by(checker);
}

/// Config 6: stage 2 has no upper half.
fn passed_by(checker: &mut Checker) {
    let second = [
        [0x0020_0000_0000_0009, 5 | 6 << 52, 0, 0],
        [PAGE_2, 0, 0, 0x1000],
    ];
    asked(checker, &second, 0, &[0, 0x1000]);
    asked(checker, &second, FIRST_UPPER, &[5, 0]);
}

fn asked(checker: &mut Checker, rows: &[Words], address: u64, words: &[u64]) {
    let asked = Asked {
        stream: 5,
        substream: 0,
        address,
        how: 0,
        memattr: 0,
        sh: 0,
        hints: 0,
    };
    let mut kept = with_rows(waiting(0, 0), rows);
    expect(checker, &mut kept, Call::Translate(asked), 0, words);
}
