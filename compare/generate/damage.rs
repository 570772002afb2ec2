//! Memories and queues with something wrong: mostly refused, sometimes not.

use super::random::Random;
use super::rows::{EL2, EL2_E2H};
use crate::limits::{ADDRESS, UPPER};

/// A bit of any word, the control word's as likely as all others'.
fn flip(random: &mut Random, kept: &mut [u64]) {
    let words = if random.once_in(2) {
        1
    } else {
        kept.len() as u64
    };
    kept[random.below(words) as usize] ^= 1 << random.below(64);
}

/// A bit of some row's word 0, where most of the format is.
fn flip_head(random: &mut Random, kept: &mut [u64]) {
    let rows = kept.len() as u64 / 4;
    if rows > 0 {
        let place = 1 + 4 * random.below(rows) as usize;
        kept[place] ^= 1 << random.below(64);
    }
}

/// A span at or just beyond a limit, whatever the row's kind.
fn edge_span(random: &mut Random, kept: &mut [u64]) {
    let rows = kept.len() as u64 / 4;
    if rows > 0 {
        let place = 1 + 4 * random.below(rows) as usize;
        let span = random.pick(&[0, 5, 6, 7, 8, 9, 10, 11, 12, 48, 49, 63]);
        kept[place] = kept[place] & !(0x3F << 5) | span << 5;
    }
}

/// An address moved to the upper half, to the lower, or to neither.
pub fn elsewhere(random: &mut Random, address: u64) -> u64 {
    let neither = UPPER ^ 1 << random.between(52, 63);
    address % ADDRESS | random.pick(&[0, UPPER, UPPER, neither])
}

/// An address word of some row, input or output.
fn misplace(random: &mut Random, kept: &mut [u64]) {
    let rows = (kept.len() as u64 - 1) / 4;
    if rows > 0 {
        let place = 1 + 4 * random.below(rows) + random.between(2, 3);
        let word = &mut kept[place as usize];
        *word = elsewhere(random, *word);
    }
}

/// Either mark or both, put on some row or taken from it.
fn mismark(random: &mut Random, kept: &mut [u64]) {
    let rows = (kept.len() as u64 - 1) / 4;
    if rows > 0 {
        let place = 1 + 4 * random.below(rows) as usize;
        kept[place] ^= random.pick(&[EL2, EL2_E2H, EL2 | EL2_E2H]);
    }
}

/// A word that means nothing.
fn noise(random: &mut Random, kept: &mut [u64]) {
    kept[random.below(kept.len() as u64) as usize] = random.next();
}

/// Cuts off or adds up to five words.
fn relength(random: &mut Random, kept: &mut Vec<u64>) {
    let amount = random.between(1, 5) as usize;
    if random.once_in(2) {
        kept.truncate(kept.len().saturating_sub(amount));
    } else {
        kept.resize(kept.len() + amount, 0);
    }
}

/// Damages an accepted memory in one way or two, so that orders are seen.
pub fn damage(random: &mut Random, kept: &mut Vec<u64>) {
    for _ in 0..random.between(1, 2) {
        match random.below(16) {
            0 | 1 => relength(random, kept),
            2..=5 => flip(random, kept),
            6..=8 => flip_head(random, kept),
            9 | 10 => edge_span(random, kept),
            11 | 12 => misplace(random, kept),
            13 | 14 => mismark(random, kept),
            _ => noise(random, kept),
        }
        if kept.is_empty() {
            break;
        }
    }
}

/// Makes a queue's length wrong by a byte, a slot or a half.
pub fn misfit(random: &mut Random, queue: &mut Vec<u8>) {
    let length = queue.len();
    let wrong = random.pick(&[
        0,
        length - 1,
        length + 1,
        length - 16,
        length + 16,
        length * 2,
        length / 2,
    ]);
    queue.resize(wrong, 0);
}
