//! One row that is there, and one that is to be filled in.

use super::{fill, first, second, ASID, EMPTY, PAGE, STREAM, SUBSTREAM, VMID, WRITE_BACK};
use crate::checker::Checker;
use crate::generate::rows::{cd, cd_table, ste, ste_block, Reach, Words};
use crate::limits::{ADDRESS, SPANS, UPPER};

pub fn sweeps(checker: &mut Checker) {
    checker.phase("doubles: every two of rows with few identifiers");
    let rows: Vec<Words> = streams().into_iter().chain(pages()).collect();
    for (old, new) in rows
        .iter()
        .flat_map(|old| rows.iter().map(move |new| (old, new)))
    {
        either(checker, *old, *new);
    }
    checker.phase("doubles: every bit of every identifier");
    bits(checker);
    checker.phase("doubles: spans that meet and spans that touch");
    for span in SPANS {
        for other in [*SPANS.start(), (span - 1).max(12), span, 30.min(span)] {
            for page in edges(span) {
                around(checker, (span, page), other);
            }
        }
    }
}

/// The new row above the old one, and below it.
fn either(checker: &mut Checker, old: Words, new: Words) {
    fill(checker, &[old, EMPTY], 1, new);
    fill(checker, &[EMPTY, old], 0, new);
}

/// STE and CD rows of both levels; their VMID, Config, overrides and ASID don't
/// matter.
fn streams() -> Vec<Words> {
    let mut rows = Vec::new();
    for stream in [STREAM, STREAM + 1] {
        for vmid in [VMID, VMID + 1] {
            rows.push(ste(stream, vmid, 4, 0));
            rows.push(ste(stream, vmid, 7, 1 << 5));
        }
        for substream in [SUBSTREAM, SUBSTREAM + 1, 0] {
            rows.push(cd(stream, substream, ASID));
            rows.push(cd(stream, substream, ASID + 1));
        }
        rows.push(cd_table(stream));
    }
    // The last of these begins with a stream that is there.
    let blocks = [(0x40, 6), (0, 8), (0, 10)];
    rows.extend(blocks.map(|(stream, span)| ste_block(stream, span)));
    rows.push(ste(0x40, VMID, 4, 0));
    rows.push(cd(0x40, 0, ASID));
    rows
}

/// Stage rows of both levels: a page, a block around it, the page behind it, and
/// the same page in the upper half.
fn pages() -> Vec<Words> {
    let mut rows = Vec::new();
    let places = [
        (12, PAGE),
        (21, PAGE),
        (12, PAGE + 0x1000),
        (12, PAGE | UPPER),
    ];
    for (span, page) in places {
        for vmid in [VMID, VMID + 1] {
            for asid in [ASID, ASID + 1] {
                for global in [false, true] {
                    let reach = Reach {
                        vmid,
                        asid,
                        global,
                        ..first(span, page)
                    };
                    rows.extend([reach.page(PAGE, WRITE_BACK), reach.table()]);
                }
            }
            if page < ADDRESS {
                let reach = Reach {
                    vmid,
                    ..second(span, page)
                };
                rows.extend([reach.page(PAGE, WRITE_BACK), reach.table()]);
            }
        }
    }
    rows
}

/// The row, and those that differ from it in one of the bits of a word.
fn bits(checker: &mut Checker) {
    let page = first(12, PAGE).page(PAGE, WRITE_BACK);
    let [word, rest @ ..] = page;
    let [one, two, three] = rest;
    let global = [word | 1 << 4, one, two, three];
    let sweeps = [
        (ste(STREAM, VMID, 7, 0), 0, 16..32),
        (ste(STREAM, VMID, 7, 0), 1, 0..32),
        (cd(STREAM, SUBSTREAM, ASID), 0, 32..48),
        (cd(STREAM, SUBSTREAM, ASID), 1, 0..52),
        (page, 0, 16..48),
        (global, 0, 16..48),
        (page, 2, 12..52),
        (page, 3, 12..52),
        (second(12, PAGE).page(PAGE, WRITE_BACK), 0, 16..32),
        (second(12, PAGE).page(PAGE, WRITE_BACK), 2, 12..52),
    ];
    for (row, word, bits) in sweeps {
        for bit in bits {
            let mut other = row;
            other[word] ^= 1 << bit;
            either(checker, row, other);
            either(checker, other, row);
        }
    }
}

/// Inputs at the ends of both halves, and one inside each.
fn edges(span: u64) -> [u64; 6] {
    let size = 1u64 << span;
    [
        0,
        ADDRESS / 2,
        ADDRESS - size,
        UPPER,
        UPPER + ADDRESS / 2,
        size.wrapping_neg(),
    ]
}

/// A row and a smaller one, or one of its size: at its start, at its end and in
/// its middle; before it and behind it, across the edges of the halves and of the
/// whole space too; and in the other half. Either is the new one.
fn around(checker: &mut Checker, (span, page): (u64, u64), other: u64) {
    let size = 1u64 << other;
    let past = page.wrapping_add(1 << span);
    let near = [
        page,
        past.wrapping_sub(size),
        page + ((1 << span) / 2 & !(size - 1)),
        page.wrapping_sub(size),
        past,
        page ^ UPPER,
    ];
    let possible = |address: &u64| *address < ADDRESS || *address >= UPPER;
    for address in near.into_iter().filter(possible) {
        let pairs = [first(span, page), first(other, address)];
        let [large, small] = pairs.map(|reach| reach.page(0, WRITE_BACK));
        either(checker, large, small);
        either(checker, small, large);
        if page < ADDRESS && address < ADDRESS {
            let pairs = [second(span, page), second(other, address)];
            let [large, small] = pairs.map(|reach| reach.page(0, WRITE_BACK));
            either(checker, large, small);
            either(checker, small, large);
        }
    }
}
