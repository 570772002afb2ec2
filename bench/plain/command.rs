//! A command, decoded.

use super::bits::{bit, field, is_multiple, mask};
use super::features::Features;
use super::region;
use super::scope::{Pages, RegionScope, RowScope};
use super::span::Span;

pub const BYTES: usize = 16;

pub enum Command {
    Prefetch,
    Sync {
        interrupt: bool,
    },
    Rows(RowScope),
    Regions(RegionScope),
    /// An invalidation that is legal, but can't have a row.
    Nothing,
}

/// Why a command is illegal; the numbers are the C interface's.
#[derive(Clone, Copy)]
pub enum Reason {
    UnknownCode = 1,
    FeatureAbsent,
    ReservedBit,
    BadParameter,
}

const CODE: u64 = mask(7, 0);
const STREAM: u64 = mask(63, 32);
const SUBSTREAM: u64 = mask(31, 12);
const VMID: u64 = mask(47, 32);
const ASID: u64 = mask(63, 48);
const NUM: u64 = mask(16, 12);
const SCALE: u64 = mask(24, 20);
const SYNC: u64 = mask(13, 12) | mask(27, 22) | mask(63, 32);

// Of the high word.
const LEAF: u64 = mask(0, 0);
const RANGE: u64 = mask(4, 0);
const TTL128: u64 = mask(7, 7);
const TTL: u64 = mask(9, 8);
const TG: u64 = mask(11, 10);
const ADDRESS: u64 = mask(63, 12);
const IPA: u64 = mask(51, 12);
const REGION: u64 = mask(55, 8);

/// The command of a slot.
pub fn decode(slot: &[u8], features: Features) -> Result<Command, Reason> {
    let raw = Raw::read(slot);
    if !raw.has_features(features).ok_or(Reason::UnknownCode)? {
        return Err(Reason::FeatureAbsent);
    }
    let (low, high) = raw.named(features);
    if raw.low & !low != 0 || raw.high & !high != 0 {
        return Err(Reason::ReservedBit);
    }
    if raw.has_bad_parameter() {
        return Err(Reason::BadParameter);
    }
    Ok(raw.command(features))
}

struct Raw {
    low: u64,
    high: u64,
}

impl Raw {
    fn read(slot: &[u8]) -> Raw {
        let word = |first: usize| {
            let bytes = slot[first..first + 8].try_into();
            u64::from_le_bytes(bytes.expect("eight bytes"))
        };
        Raw {
            low: word(0),
            high: word(8),
        }
    }

    fn code(&self) -> u64 {
        self.low & CODE
    }

    /// None for a code that there isn't.
    fn has_features(&self, features: Features) -> Option<bool> {
        match self.code() {
            0x01..=0x04 | 0x30 | 0x46 => Some(true),
            0x05 | 0x06 | 0x10..=0x13 => Some(features.s1p),
            0x20..=0x23 => Some(features.hyp && features.s1p),
            0x28 | 0x2A => Some(features.s2p),
            0x70 | 0x73 => Some(features.dpt),
            _ => None,
        }
    }

    /// The bits that may be set, of both words.
    fn named(&self, features: Features) -> (u64, u64) {
        let vmid = if features.s2p { VMID } else { 0 };
        let (range, level) = self.named_of_range(features);
        match self.code() {
            0x01 | 0x02 => (!mask(10, 10), !0),
            0x03 => (CODE | STREAM, LEAF),
            0x04 => (CODE | STREAM, RANGE),
            0x05 => (CODE | STREAM | SUBSTREAM, LEAF),
            0x06 => (CODE | STREAM, 0),
            0x10 => (CODE | vmid, 0),
            0x11 => (CODE | vmid | ASID, 0),
            0x12 => (CODE | vmid | ASID | range, LEAF | level | ADDRESS),
            0x13 => (CODE | vmid | range, LEAF | level | ADDRESS),
            0x21 => (CODE | ASID, 0),
            0x22 => (CODE | ASID | range, LEAF | level | ADDRESS),
            0x23 => (CODE | range, LEAF | level | ADDRESS),
            0x28 => (CODE | vmid, 0),
            0x2A => (CODE | vmid | range, LEAF | level | IPA),
            0x46 => (CODE | SYNC, !0),
            0x73 => (CODE, LEAF | REGION),
            _ => (CODE, 0),
        }
    }

    /// TG 0 is no range and has no level, and TTL128 needs a TTL.
    fn named_of_range(&self, features: Features) -> (u64, u64) {
        match (features.ril, self.high & TG, self.high & TTL) {
            (false, ..) => (0, 0),
            (true, 0, _) => (0, TG),
            (true, _, 0) => (NUM | SCALE, TG | TTL),
            (true, ..) => (NUM | SCALE, TG | TTL | TTL128),
        }
    }

    fn has_bad_parameter(&self) -> bool {
        match self.code() {
            0x12 | 0x13 | 0x22 | 0x23 | 0x2A => self.has_bad_range(),
            0x46 => field(self.low, 13, 12) == 3,
            _ => false,
        }
    }

    /// A single granule needs a level that its size has.
    fn has_bad_range(&self) -> bool {
        let (granule, level) = (field(self.high, 11, 10), field(self.high, 9, 8));
        let no_level = level == 0 || (granule == 2 && level == 1);
        granule != 0 && self.low & (NUM | SCALE) == 0 && no_level
    }

    fn command(&self, features: Features) -> Command {
        match self.code() {
            0x01 | 0x02 => Command::Prefetch,
            0x46 => Command::Sync {
                interrupt: field(self.low, 13, 12) == 1,
            },
            0x70 => Command::Regions(RegionScope::All),
            0x73 => self.region_command(),
            _ if self.is_too_wide(features) => Command::Nothing,
            _ => Command::Rows(self.row_scope(features)),
        }
    }

    /// Whether it names an ASID or VMID that no row can have.
    fn is_too_wide(&self, features: Features) -> bool {
        let has_asid = matches!(self.code(), 0x11 | 0x12 | 0x21 | 0x22);
        let has_vmid = matches!(self.code(), 0x10..=0x13 | 0x28 | 0x2A);
        (has_asid && !features.asid16 && self.asid() > 0xFF)
            || (has_vmid && !features.vmid16 && self.vmid() > 0xFF)
    }

    fn row_scope(&self, features: Features) -> RowScope {
        let (stream, leaf) = (self.stream(), bit(self.high, 0));
        let (vmid, asid, e2h) = (self.vmid(), self.asid(), features.e2h);
        let pages = self.pages();
        match self.code() {
            0x03 => RowScope::Ste { stream, leaf },
            0x04 => RowScope::SteRange {
                stream,
                range: field(self.high, 4, 0) as u32,
            },
            0x05 => RowScope::Cd {
                stream,
                substream: field(self.low, 31, 12) as u32,
                leaf,
            },
            0x06 => RowScope::CdAll { stream },
            0x10 => RowScope::NhAll { vmid },
            0x11 => RowScope::NhAsid { vmid, asid },
            0x12 => RowScope::NhVa { vmid, asid, pages },
            0x13 => RowScope::NhVaa { vmid, pages },
            0x20 => RowScope::El2All,
            0x21 => RowScope::El2Asid { asid },
            0x22 => RowScope::El2Va { e2h, asid, pages },
            0x23 => RowScope::El2Vaa { e2h, pages },
            0x28 => RowScope::S12Vmall { vmid },
            0x2A => RowScope::S2Ipa { vmid, pages },
            _ => RowScope::NsnhAll,
        }
    }

    fn region_command(&self) -> Command {
        let address = self.high & IPA;
        match region::log2_of(field(self.high, 11, 8)) {
            Some(log2) if is_multiple(address, log2) => Command::Regions(RegionScope::Pa {
                address,
                log2,
                leaf: bit(self.high, 0),
            }),
            _ => Command::Nothing,
        }
    }

    fn stream(&self) -> u32 {
        field(self.low, 63, 32) as u32
    }

    fn vmid(&self) -> u16 {
        field(self.low, 47, 32) as u16
    }

    fn asid(&self) -> u16 {
        field(self.low, 63, 48) as u16
    }

    fn pages(&self) -> Pages {
        Pages {
            addresses: self.addresses(),
            leaf: bit(self.high, 0),
        }
    }

    fn addresses(&self) -> Span {
        let address = self.high & ADDRESS;
        let granule = match field(self.high, 11, 10) {
            0 => return Span::single(address),
            1 => 12,
            2 => 14,
            _ => 16,
        };
        let granules = (field(self.low, 16, 12) + 1) << field(self.low, 24, 20);
        let first = address >> granule << granule;
        Span {
            first,
            last: first.saturating_add((granules << granule) - 1),
        }
    }
}
