//! The second table: cached regions of the device permission table (document 02,
//! T-11).

use super::refusal::Refusal;
use super::words::{bit, part};
use crate::limits::{table_words, ADDRESS, REGIONS};

/// The bytes that a size code stands for; None if it's Reserved.
pub fn bytes(code: u64) -> Option<u64> {
    const KB: u64 = 1 << 10;
    const MB: u64 = 1 << 20;
    const GB: u64 = 1 << 30;
    let sizes = [
        4 * KB,
        16 * KB,
        64 * KB,
        2 * MB,
        32 * MB,
        512 * MB,
        GB,
        16 * GB,
        64 * GB,
        512 * GB,
    ];
    sizes.get(code as usize).copied()
}

/// The two words of a row.
#[derive(Clone, Copy, Debug, PartialEq, Eq)]
pub struct Region(pub [u64; 2]);

impl Region {
    /// Whether word 0 says that the row is in use.
    pub fn used(&self) -> bool {
        self.0[0] != 0
    }

    pub fn last_level(&self) -> bool {
        bit(self.0[0], 1)
    }

    /// The bytes of its size; None if it has a code that is none.
    pub fn size(&self) -> Option<u64> {
        bytes(part(self.0[0], 5, 2))
    }

    pub fn base(&self) -> u64 {
        self.0[1]
    }

    /// Whether the words make a well-formed row in use.
    pub fn sound(&self) -> bool {
        let placed = |size: u64| self.base() < ADDRESS && self.base() % size == 0;
        bit(self.0[0], 0) && part(self.0[0], 63, 6) == 0 && self.size().is_some_and(placed)
    }

    /// The other word of an empty row is free.
    pub fn acceptable(&self) -> bool {
        !self.used() || self.sound()
    }
}

/// The rows of a second table, lowest first.
pub fn regions(table: &[u64]) -> impl Iterator<Item = Region> + '_ {
    table.chunks_exact(2).map(|row| Region([row[0], row[1]]))
}

pub fn used_regions(table: &[u64]) -> u64 {
    regions(table).filter(Region::used).count() as u64
}

/// Refusals 13 and 14, which come after 3.
pub fn accept(table: &[u64]) -> Result<(), Refusal> {
    if !(table_words(1)..=table_words(REGIONS)).contains(&table.len()) || table.len() % 2 != 0 {
        return Err(Refusal::TableLength);
    }
    match regions(table).position(|region| !region.acceptable()) {
        Some(lowest) => Err(Refusal::TableRow(lowest)),
        None => Ok(()),
    }
}

/// The regions that a legal command is after.
#[derive(Clone, Copy, Debug, PartialEq, Eq)]
pub enum Regions {
    /// Code 70.
    All,
    /// Code 73: SIZE as the command has it.
    Within { address: u64, size: u64, leaf: bool },
}

impl Regions {
    /// Whether a row is in use and in scope.
    pub fn takes(&self, region: &Region) -> bool {
        if !region.used() {
            return false;
        }
        match *self {
            Regions::All => true,
            Regions::Within {
                address,
                size,
                leaf,
            } => {
                let within = |bytes: u64| aligned(address, bytes) && inside(region, address, bytes);
                (region.last_level() || !leaf) && bytes(size).is_some_and(within)
            }
        }
    }
}

fn aligned(address: u64, bytes: u64) -> bool {
    address % bytes == 0
}

/// Whether the row is no larger than the bytes from the address on, and within them.
fn inside(region: &Region, address: u64, bytes: u64) -> bool {
    let smaller = region.size().is_some_and(|size| size <= bytes);
    smaller && address <= region.base() && region.base() < address + bytes
}
