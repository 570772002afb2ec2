//! A stream cut into batches, and the pages that a batch is after.

use crate::generate::commands::Command;
use std::collections::BTreeMap;

/// Invalidations between two commands that are none.
pub struct Batch {
    pub commands: Vec<Command>,
    /// Pages in a row, by what else their commands have, in the order of both.
    pub pages: Vec<Pages>,
}

/// What commands by address have to share: the code with VMID and ASID; Leaf and TTL.
pub type Shared = Command;

/// So many pages of 4 KiB from the first on, and by how many commands they came.
#[derive(Clone, Copy, Debug, PartialEq, Eq)]
pub struct Pages {
    pub shared: Shared,
    pub first: u64,
    pub count: u64,
    pub commands: u64,
}

const NUM: u64 = 0x1F << 12;
const SCALE: u64 = 0x1F << 20;
const TG: u64 = 3 << 10;
const FOUR_KIB: u64 = 1 << 10;

pub fn bytes(commands: &[Command]) -> Vec<u8> {
    let words = commands.iter().flat_map(|&(low, high)| [low, high]);
    words.flat_map(u64::to_le_bytes).collect()
}

/// The stream, cut at whatever is no invalidation: CMD_SYNC, and prefetches.
pub fn batches(sent: &[u8]) -> Vec<Batch> {
    let word = |bytes: &[u8]| u64::from_le_bytes(bytes.try_into().expect("eight bytes"));
    let slots = sent.chunks_exact(16);
    let commands: Vec<Command> = slots
        .map(|slot| (word(&slot[..8]), word(&slot[8..])))
        .collect();
    let parts = commands.split(|&(low, _)| matches!(low as u8, 0x01 | 0x02 | 0x46));
    let some = parts.filter(|part| !part.is_empty());
    some.map(|part| Batch::of(part.to_vec())).collect()
}

/// The pages that a command is after, if it is one by address whose pages are of 4 KiB.
fn pages((low, high): Command) -> Option<Pages> {
    let ranged = matches!(low as u8, 0x12 | 0x22 | 0x2A);
    let count = match high & TG {
        0 => 1,
        FOUR_KIB => ((low & NUM) >> 12) + 1 << ((low & SCALE) >> 20),
        _ => return None,
    };
    ranged.then_some(Pages {
        shared: (low & !(NUM | SCALE), high & 0xFFF & !TG),
        first: high >> 12,
        count,
        commands: 1,
    })
}

impl Batch {
    fn of(commands: Vec<Command>) -> Batch {
        let mut groups: BTreeMap<Shared, Vec<Pages>> = BTreeMap::new();
        for pages in commands.iter().filter_map(|&command| pages(command)) {
            groups.entry(pages.shared).or_default().push(pages);
        }
        let mut pages: Vec<Pages> = Vec::new();
        for mut group in groups.into_values() {
            group.sort_by_key(|pages| pages.first);
            for own in group {
                match pages.last_mut() {
                    Some(last) if last.shared == own.shared && last.end() >= own.first => {
                        last.count = last.end().max(own.end()) - last.first;
                        last.commands += 1;
                    }
                    _ => pages.push(own),
                }
            }
        }
        Batch { commands, pages }
    }

    /// The commands that aren't by address as they are, and then the pages in ranges.
    pub fn proposal(&self) -> Vec<Command> {
        self.proposing(&self.pages)
    }

    /// The same for other pages than the batch's own.
    pub fn proposing(&self, pages: &[Pages]) -> Vec<Command> {
        let others = self
            .commands
            .iter()
            .filter(|&&own| self::pages(own).is_none());
        let merged = pages.iter().flat_map(Pages::ranges);
        others.copied().chain(merged).collect()
    }

    /// Those that the most commands were merged into; None if nothing was merged, or if
    /// another command of the batch might take rows beside them, too.
    pub fn largest(&self) -> Option<usize> {
        let alone = self.commands.iter().all(|&own| pages(own).is_some());
        let places = 0..self.pages.len();
        let most = places.max_by_key(|&place| self.pages[place].commands)?;
        (alone && self.pages[most].commands > 1).then_some(most)
    }
}

impl Pages {
    pub fn end(&self) -> u64 {
        self.first + self.count
    }

    /// Exactly those pages, by ranges of (NUM + 1) times 2^SCALE of them, the longest first;
    /// a last one alone by its address.
    pub fn ranges(&self) -> Vec<Command> {
        let (low, high) = self.shared;
        let mut ranges = Vec::new();
        let (mut first, mut left) = (self.first, self.count);
        while left > 0 {
            let scale = (0..).find(|&scale| left >> scale <= 32).unwrap_or(0);
            let many = left >> scale;
            let level = high >> 8 & 3;
            ranges.push(match (many, scale, level) {
                (1, 0, 0) => (low, first << 12 | high),
                _ => (
                    low | (many - 1) << 12 | scale << 20,
                    first << 12 | high | FOUR_KIB,
                ),
            });
            first += many << scale;
            left -= many << scale;
        }
        ranges
    }
}
