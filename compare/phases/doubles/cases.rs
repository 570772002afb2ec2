//! Document 02's sentences about doubles, with words and answers written out; they
//! hold the model to the paper as well as the unit.

use super::{waiting, EMPTY};
use crate::call::{Asked, Call};
use crate::checker::Checker;
use crate::generate::images::with_rows;
use crate::generate::rows::Words;
use crate::phases::cases::expect;

/// Word 0 of rows with nothing but their kind, level and span 12 or 48: STE and CD
/// last-level; stage 1 and stage 2, last-level or not.
const STE: u64 = 0x09;
const CD: u64 = 0x0B;
const CD_TABLE: u64 = 0x03;
const PAGE: u64 = 0x18D;
const TABLE: u64 = 0x185;
const BLOCK: u64 = 0x60D;
const PAGE_2: u64 = 0x18F;
const TABLE_2: u64 = 0x187;
const BLOCK_2: u64 = 0x60F;

const GLOBAL: u64 = 1 << 4;
const VMID: u64 = 1 << 16;
const ASID: u64 = 1 << 32;
const SUBSTREAM: u64 = 1 << 32;
const CONFIG_7: u64 = 7 << 52;
const UPPER: u64 = 0xFFF0_0000_0000_0000;
const TOP: u64 = 0xFFFF_FFFF_FFFF_F000;
const TOP_BLOCK: u64 = 0xFFFF_0000_0000_0000;

pub fn cases(checker: &mut Checker) {
    checker.phase("document 02's doubles");
    streams(checker);
    pages(checker);
    spaces(checker);
    allowed(checker);
    last(checker);
    again(checker);
}

/// The new row beside the old one, as either of them; 11 or carried out.
fn pair(checker: &mut Checker, one: Words, other: Words, number: u64) {
    for (old, new) in [(one, other), (other, one)] {
        for (rows, row) in [([old, EMPTY], 1), ([EMPTY, old], 0)] {
            let mut kept = with_rows(waiting(0, 0), &rows);
            let call = fill(row, new, 4);
            expect(checker, &mut kept, call, number, &[]);
        }
    }
}

fn fill(row: u64, words: Words, allowance: u64) -> Call<'static> {
    Call::Fill {
        row,
        words,
        allowance,
    }
}

/// STE rows double by their stream, CD rows by both identifiers; no row that isn't
/// last-level, and none of another kind.
fn streams(checker: &mut Checker) {
    let ste = [STE, 0x40, 0, 0];
    pair(checker, ste, ste, 11);
    pair(checker, ste, [STE | VMID, 0x40 | CONFIG_7, 0, 0], 11);
    pair(checker, ste, [STE, 0x41, 0, 0], 0);
    pair(checker, ste, [STE, 0x8000_0040, 0, 0], 0);
    // A block of streams, span 6.
    pair(checker, ste, [0xC1, 0x40, 0, 0], 0);
    let cd = [CD, 0x40, 0, 0];
    pair(checker, cd, cd, 11);
    pair(checker, cd, [CD | ASID, 0x40, 0, 0], 11);
    pair(checker, cd, [CD, 0x40 | SUBSTREAM, 0, 0], 0);
    pair(checker, cd, [CD, 0x40 | 1 << 51, 0, 0], 0);
    pair(checker, cd, [CD, 0x41, 0, 0], 0);
    pair(checker, cd, [CD_TABLE, 0x40, 0, 0], 0);
    pair(checker, [CD_TABLE, 0x40, 0, 0], [CD_TABLE, 0x40, 0, 0], 0);
    pair(checker, cd, ste, 0);
}

/// A shared address: spans that overlap, not spans that touch, in either half and
/// up to 2^64.
fn pages(checker: &mut Checker) {
    let page = |word, input| [word, 0, input, 0];
    for (one, other, number) in [
        ((PAGE, 0), (PAGE, 0), 11),
        ((PAGE, 0), (PAGE, 0x1000), 0),
        ((PAGE, 0x1000), (BLOCK, 0), 11),
        ((PAGE, 0xFFFF_FFFF_F000), (BLOCK, 0), 11),
        ((PAGE, 0x1_0000_0000_0000), (BLOCK, 0), 0),
        ((PAGE, 0xFFFF_FFFF_F000), (BLOCK, 0x1_0000_0000_0000), 0),
        ((PAGE, TOP), (PAGE, TOP), 11),
        ((PAGE, TOP), (BLOCK, TOP_BLOCK), 11),
        ((PAGE, TOP_BLOCK), (BLOCK, TOP_BLOCK), 11),
        ((BLOCK, TOP_BLOCK), (BLOCK, TOP_BLOCK), 11),
        ((BLOCK, TOP_BLOCK), (BLOCK, 0xFFFE_0000_0000_0000), 0),
        ((PAGE, TOP), (PAGE, 0), 0),
        ((BLOCK, TOP_BLOCK), (BLOCK, 0), 0),
        ((PAGE, UPPER), (PAGE, UPPER), 11),
        ((PAGE, UPPER), (PAGE, 0), 0),
        ((BLOCK, UPPER), (BLOCK, 0), 0),
        ((PAGE, 0), (TABLE, 0), 0),
        ((TABLE, 0), (TABLE, 0), 0),
        ((PAGE, UPPER), (TABLE, UPPER), 0),
        ((PAGE_2, 0), (PAGE_2, 0), 11),
        ((PAGE_2, 0x1000), (BLOCK_2, 0), 11),
        ((PAGE_2, 0), (PAGE_2, 0x1000), 0),
        ((PAGE_2, 0), (TABLE_2, 0), 0),
        ((PAGE_2, 0), (PAGE, 0), 0),
    ] {
        pair(checker, page(one.0, one.1), page(other.0, other.1), number);
    }
}

/// One VMID; for stage 1 also one ASID, unless a row is global.
fn spaces(checker: &mut Checker) {
    for input in [0, TOP] {
        let page = |bits| [PAGE | bits, 0, input, 0];
        for (one, other, number) in [
            (0, VMID, 0),
            (0, 1 << 31, 0),
            (0, ASID, 0),
            (0, 1 << 47, 0),
            (0, GLOBAL, 11),
            (0, GLOBAL | ASID, 11),
            (ASID, GLOBAL, 11),
            (GLOBAL, GLOBAL | ASID, 11),
            (GLOBAL, GLOBAL | VMID, 0),
            (GLOBAL, VMID, 0),
            (VMID | ASID, VMID | GLOBAL, 11),
        ] {
            pair(checker, page(one), page(other), number);
        }
    }
    let page = |bits| [PAGE_2 | bits, 0, 0, 0];
    pair(checker, page(0), page(VMID), 0);
    pair(checker, page(VMID), page(VMID), 11);
}

/// An STE row that leaves the shareability as it comes.
fn ste(config: u64) -> Words {
    [0x0020_0000_0000_0009, 5 | config << 52, 0, 0]
}

/// Two rows of one stream, between empty ones.
fn doubled() -> Vec<u64> {
    with_rows(waiting(0, 0), &[EMPTY, ste(4), ste(0), EMPTY])
}

/// An image that holds doubles stays legal, and the lowest row answers; a third is
/// refused, at any allowance.
fn allowed(checker: &mut Checker) {
    let mut kept = doubled();
    expect(checker, &mut kept, Call::State, 0, &[0, 0, 0, 0, 1, 2]);
    let asked = Asked {
        stream: 5,
        substream: 0,
        address: 0x1234,
        how: 0,
        memattr: 0,
        sh: 0,
        hints: 0,
    };
    expect(checker, &mut kept, Call::Translate(asked), 0, &[0, 0x1234]);
    for allowance in [0, 1, 4, u64::MAX] {
        expect(checker, &mut kept, fill(0, ste(7), allowance), 11, &[0; 8]);
        expect(checker, &mut kept, fill(3, ste(7), allowance), 11, &[0; 8]);
    }
}

/// 11 is tried after all the others.
fn last(checker: &mut Checker) {
    for (row, words, number) in [(0, ste(1), 9), (1, ste(7), 8), (4, ste(7), 7)] {
        expect(checker, &mut doubled(), fill(row, words, 4), number, &[]);
    }
    let long = [doubled(), vec![0]].concat();
    let mut control = doubled();
    control[0] |= 1 << 63;
    let row = [doubled(), vec![2, 0, 0, 0]].concat();
    for (mut kept, number) in [(long, 1), (control, 2), (row, 3)] {
        expect(checker, &mut kept, fill(0, ste(7), 4), number, &[]);
    }
}

/// What a cut fill left doubles nothing, in its own row or in another; the row that
/// was filled does.
fn again(checker: &mut Checker) {
    let mut kept = doubled();
    for (row, allowance, number, words) in [
        (0, 3, 0, [1, 3]),
        (0, 3, 0, [1, 3]),
        (3, 2, 0, [1, 2]),
        (0, 4, 0, [0, 4]),
        (0, 4, 8, [0, 0]),
        (3, 4, 11, [0, 0]),
    ] {
        let call = fill(row, [CD, 5, 0, 0], allowance);
        expect(checker, &mut kept, call, number, &words);
    }
}
