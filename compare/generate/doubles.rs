//! Rows to be filled in: those that answer what no row does yet, and those that
//! double a row of the memory or nearly do.

use super::random::Random;
use super::rows::{any_row, cd_table, marked, ste_block, Words, EL2, EL2_E2H, MARKS};
use super::world::World;
use crate::limits::{ADDRESS, BLOCKS, SPANS, UPPER};
use crate::model::image::rows;
use crate::model::row::{Kind, Row};
use crate::model::words::with_part;

fn doubled(kept: &[u64], words: Words) -> bool {
    rows(kept).any(|old| Row(words).doubles(&old))
}

/// A row that doubles none: of the pools, or where they are used up with an
/// identifier of its own.
pub fn fresh(random: &mut Random, world: &World, kept: &[u64]) -> Words {
    let mut words = any_row(random, world);
    for _ in 0..3 {
        if !doubled(kept, words) {
            return words;
        }
        words = any_row(random, world);
    }
    let any = random.next();
    match Row(words).kind() {
        Kind::Ste | Kind::Cd if Row(words).last_level() => {
            words[1] = with_part(words[1], 31, 0, any)
        }
        Kind::Stage1 | Kind::Stage2 if !Row(words).marked() => {
            words[0] = with_part(words[0], 31, 16, any)
        }
        _ => (),
    }
    words
}

/// A row made from a last-level one of the memory; any row where there is none.
pub fn near(random: &mut Random, world: &World, kept: &[u64]) -> Words {
    let last: Vec<Row> = rows(kept)
        .filter(|row| row.used() && row.last_level())
        .collect();
    if last.is_empty() {
        return any_row(random, world);
    }
    let row = random.pick(&last);
    match row.kind() {
        Kind::Ste | Kind::Cd => near_stream(random, row),
        _ => near_page(random, row),
    }
}

/// The same stream; one that differs in a bit, or in one of the substream; another
/// VMID or ASID; not last-level.
fn near_stream(random: &mut Random, row: Row) -> Words {
    let mut words = row.0;
    match random.below(6) {
        0 => words[1] ^= 1 << random.below(32),
        1 if row.kind() == Kind::Cd => words[1] ^= 1 << random.between(32, 51),
        2 if row.kind() == Kind::Ste => words[0] ^= 1 << random.between(16, 31),
        2 => words[0] ^= 1 << random.between(32, 47),
        3 if row.kind() == Kind::Ste => return ste_block(row.stream(), random.pick(&BLOCKS)),
        3 => return cd_table(row.stream()),
        _ => (),
    }
    words
}

/// The same page; a part of it or more; what touches it; another VMID or ASID, or
/// global; not last-level; the other half, or the other stage; with another mark or
/// with none.
fn near_page(random: &mut Random, row: Row) -> Words {
    let mut words = row.0;
    let first = row.kind() == Kind::Stage1;
    match random.below(15) {
        0 | 1 => words = spanned(random, row),
        2 | 3 => words = touching(random, row),
        4 => words[0] ^= 1 << random.between(16, 31),
        5 if first => words[0] ^= 1 << random.between(32, 47),
        6 if first => words[0] ^= 1 << 4,
        7 if first => words[0] ^= 1 << 4 | 1 << random.between(32, 47),
        8 => words = [with_part(words[0] ^ 1 << 3, 63, 48, 0), 0, words[2], 0],
        9 if first => words[2] ^= UPPER,
        10 => words = other_stage(row),
        11 | 12 if first => words = marked(words, random.pick(&MARKS)),
        13 if first => words[0] &= !(EL2 | EL2_E2H),
        _ => (),
    }
    words
}

/// Another span that holds a byte of this one.
fn spanned(random: &mut Random, row: Row) -> Words {
    let [word, one, input, output] = row.0;
    let span = random.between(*SPANS.start(), *SPANS.end());
    let inside = input.wrapping_add(random.below(1 << row.span()));
    let aligned = |address: u64| address >> span << span;
    let word = with_part(word, 10, 5, span);
    [word, one, aligned(inside), aligned(output)]
}

/// A span of any size that ends where this one begins, or begins where it ends if
/// the size fits there.
fn touching(random: &mut Random, row: Row) -> Words {
    let [word, one, input, output] = row.0;
    let (least, most) = (*SPANS.start(), *SPANS.end());
    let span = random.between(least, row.span().clamp(least, most));
    let (size, word) = (1u64 << span, with_part(word, 10, 5, span));
    let before = input.wrapping_sub(size);
    let after = row.last().wrapping_add(1);
    [word, one, random.pick(&[before, after]), output]
}

/// Stage 2 for stage 1 and the other way round, in the lower half.
fn other_stage(row: Row) -> Words {
    let [word, one, input, output] = row.0;
    let bare = with_part(with_part(word, 59, 54, 0), 47, 32, 0);
    [bare & !(1 << 4) ^ 1 << 1, one, input % ADDRESS, output]
}
