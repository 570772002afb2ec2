//! Ranges for commands by address (document 02, T-07).

use super::commands::{Command, RANGED};
use super::random::Random;
use crate::limits::ADDRESS;

/// The granules by TG, as powers of two; 0 is none.
pub const GRANULES: [u64; 4] = [0, 12, 14, 16];

#[derive(Clone, Copy, Debug, PartialEq, Eq)]
pub struct Range {
    pub num: u64,
    pub scale: u64,
    pub tg: u64,
    pub ttl: u64,
    pub ttl128: u64,
}

impl Range {
    /// So many granules of 2^SCALE, for a level, so that one alone is legal too.
    pub fn new(tg: u64, num: u64, scale: u64) -> Range {
        Range {
            num,
            scale,
            tg,
            ttl: 3,
            ttl128: 0,
        }
    }

    /// The command, from whose address the range starts.
    pub fn over(self, (low, high): Command) -> Command {
        let range = self.tg << 10 | self.ttl << 8 | self.ttl128 << 7;
        (low | self.num << 12 | self.scale << 20, high | range)
    }

    /// How many bytes it has; 2^52 at most.
    pub fn bytes(self) -> u64 {
        (self.num + 1) << (self.scale + GRANULES[self.tg as usize])
    }
}

/// A legal range: often a short one, now and then of any length.
pub fn any(random: &mut Random) -> Range {
    let (num, scale) = (random.below(32), random.below(32));
    let tg = random.between(1, 3);
    let ttl = random.below(4);
    let range = Range {
        num: random.pick(&[0, 0, 1, 3, 15, 31, num]),
        scale: random.pick(&[0, 0, 0, 1, 5, 9, 18, scale]),
        tg,
        ttl,
        ttl128: u64::from(ttl > 0 && random.once_in(4)),
    };
    match (range.num, range.scale) {
        // One granule needs a level, and TTL 1 is none at 16 KiB.
        (0, 0) if ttl < 2 => Range { ttl: 2, ..range },
        _ => range,
    }
}

/// One command in so many with an address gets a range, and then often starts
/// below it, so that the address lies within the range, at its end or behind. What
/// comes of it hangs on the command alone and moves no other draw.
pub fn reaching((low, high): Command, times: u64) -> Command {
    let mut random = Random::new(low ^ high.rotate_left(32));
    if !RANGED.contains(&(low & 0xFF)) || !random.once_in(times) {
        return (low, high);
    }
    let range = any(&mut random);
    let unit = 1 << (GRANULES[range.tg as usize] + range.scale);
    let below = random.below(range.num + 3) * random.below(2) * unit;
    let page = (high & !0xFFF).wrapping_sub(below);
    let page = if low & 0xFF == 0x2A {
        page % ADDRESS
    } else {
        page
    };
    range.over((low, page | high & 0xFFF))
}
