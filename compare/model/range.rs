//! Range invalidation (document 02, T-07; Arm's 4.4.1.1).

use super::command::Bits;
use super::row::Row;
use super::words::{bit, part};

const NUM: Bits = (16, 12);
const SCALE: Bits = (24, 20);
const TTL128: Bits = (71, 71);
const TTL: Bits = (73, 72);
const TG: Bits = (75, 74);

/// The fields of a command by address that say how far it reaches.
#[derive(Clone, Copy, Debug, PartialEq, Eq)]
pub struct Fields {
    pub num: u64,
    pub scale: u64,
    pub tg: u64,
    pub ttl: u64,
    pub ttl128: bool,
}

impl Fields {
    pub fn of(low: u64, high: u64) -> Fields {
        Fields {
            num: part(low, 16, 12),
            scale: part(low, 24, 20),
            tg: part(high, 11, 10),
            ttl: part(high, 9, 8),
            ttl128: bit(high, 7),
        }
    }

    /// Those that may be set once there is RIL: with TG 0 none of them but TG, and
    /// TTL128 only beside a TTL.
    pub fn named(&self) -> &'static [Bits] {
        match (self.tg, self.ttl) {
            (0, _) => &[TG],
            (_, 0) => &[TG, NUM, SCALE, TTL],
            (_, _) => &[TG, NUM, SCALE, TTL, TTL128],
        }
    }

    /// A granule with neither a range nor a level is Reserved. TTL 1 is no level of
    /// a 16 KiB granule: it is read as TTL 0.
    pub fn bad(&self) -> bool {
        let level = match (self.tg, self.ttl) {
            (2, 1) => 0,
            (_, ttl) => ttl,
        };
        self.tg != 0 && (self.num, self.scale, level) == (0, 0, 0)
    }

    /// The granule in bytes; TG 0 has none.
    fn granule(&self) -> Option<u128> {
        match self.tg {
            1 => Some(4 << 10),
            2 => Some(16 << 10),
            3 => Some(64 << 10),
            _ => None,
        }
    }
}

/// Where a command by address reaches.
#[derive(Clone, Copy, Debug, PartialEq, Eq)]
pub enum Extent {
    Address(u64),
    /// The first address, and one past the last, which may be 2^64.
    Range(u128, u128),
}

/// (NUM + 1) times 2^SCALE granules from the address rounded down to a granule, but
/// to the end of the 64-bit space at most; without a granule the address alone. TTL
/// and TTL128 have no part in it.
pub fn extent(address: u64, fields: Fields) -> Extent {
    let Some(granule) = fields.granule() else {
        return Extent::Address(address);
    };
    let first = u128::from(address) / granule * granule;
    let granules = u128::from(fields.num + 1) << fields.scale;
    let end = first + granules * granule;
    Extent::Range(first, end.min(1 << 64))
}

impl Extent {
    /// Whether a stage row's span has an address in it.
    pub fn meets(&self, row: &Row) -> bool {
        match *self {
            Extent::Address(address) => row.covers(address),
            Extent::Range(first, end) => {
                let input = u128::from(row.input());
                input < end && first < input + (1 << row.span())
            }
        }
    }
}
