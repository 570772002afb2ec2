//! The small pools that one input draws from.

use super::random::Random;
use crate::limits::{ADDRESS, SPANS, UPPER};

pub struct World {
    streams: Vec<u64>,
    substreams: Vec<u64>,
    vmids: Vec<u64>,
    asids: Vec<u64>,
    spans: Vec<u64>,
    /// Addresses of 4 KiB pages of the lower half, used as inputs and as outputs.
    pages: Vec<u64>,
    /// What bits 63:52 are in the halves that stage 1 uses: one of them or both.
    halves: Vec<u64>,
}

impl World {
    pub fn new(random: &mut Random) -> World {
        World {
            streams: streams(random),
            substreams: vec![
                0,
                random.pick(&[1, 2, 0x8_0000]),
                random.pick(&[3, 0xF_FFFF]),
            ],
            vmids: identifiers(random),
            asids: identifiers(random),
            spans: spans(random),
            pages: pages(random),
            halves: halves(random),
        }
    }

    pub fn stream(&self, random: &mut Random) -> u64 {
        random.pick(&self.streams)
    }

    pub fn substream(&self, random: &mut Random) -> u64 {
        random.pick(&self.substreams)
    }

    pub fn vmid(&self, random: &mut Random) -> u64 {
        random.pick(&self.vmids)
    }

    pub fn asid(&self, random: &mut Random) -> u64 {
        random.pick(&self.asids)
    }

    pub fn span(&self, random: &mut Random) -> u64 {
        random.pick(&self.spans)
    }

    pub fn page(&self, random: &mut Random) -> u64 {
        random.pick(&self.pages)
    }

    /// A page as stage 1 takes it: one of the pool, in a half that is in use.
    pub fn input(&self, random: &mut Random) -> u64 {
        self.page(random) | random.pick(&self.halves)
    }
}

/// Neighbours within a few blocks, and one that differs in a single bit.
fn streams(random: &mut Random) -> Vec<u64> {
    let far = random.next() & 0xFFFF_FC00;
    let base = random.pick(&[0, 0x100, 0xFFFF_FC00, far]);
    let near = [
        0, 1, 2, 6, 7, 8, 0x3F, 0x40, 0x80, 0xFF, 0x100, 0x1FF, 0x3FF,
    ];
    let first = base + random.pick(&near);
    vec![
        first,
        base + random.pick(&near),
        base + random.pick(&near),
        first ^ 1 << random.below(32),
    ]
}

/// VMIDs or ASIDs: 0 for units without stage 2, and two that are equal once the
/// upper byte is lost.
fn identifiers(random: &mut Random) -> Vec<u64> {
    let first = random.pick(&[0, 1, 5, 0x34, 0xFF]);
    vec![0, first, first ^ 0x100 << random.below(8)]
}

fn spans(random: &mut Random) -> Vec<u64> {
    let usual = random.pick(&[12, 16, 21, 25, 30, 39]);
    vec![
        12,
        usual,
        random.between(*SPANS.start(), *SPANS.end()),
        random.pick(&[SPANS.start() + 1, SPANS.end() - 1, *SPANS.end()]),
    ]
}

/// A page, two that differ from it in one bit, its neighbour, and an extreme.
fn pages(random: &mut Random) -> Vec<u64> {
    let page = random.next() % ADDRESS & !0xFFF;
    vec![
        page,
        page ^ 1 << random.between(12, 51),
        page ^ 1 << random.between(12, 51),
        (page + 0x1000) % ADDRESS,
        random.pick(&[0, ADDRESS - 0x1000]),
    ]
}

/// Often both, so that a page has a counterpart in the other half.
fn halves(random: &mut Random) -> Vec<u64> {
    match random.below(4) {
        0 => vec![0],
        1 => vec![UPPER],
        _ => vec![0, UPPER],
    }
}
