//! Commands: which are legal, what a legal one does (document 01, Commands and
//! their scopes; document 02, T-05, T-07 and T-11), and why another is not (T-09).

use super::range::{self, Fields};
use super::reason::Reason;
use super::region::Regions;
use super::scope::{Page, Scope};
use super::words::{bit, part};

/// What the host says that the emulated unit can do, and how E2H is set.
#[derive(Clone, Copy, Debug, PartialEq, Eq)]
pub struct Features {
    pub s1p: bool,
    pub s2p: bool,
    pub asid16: bool,
    pub vmid16: bool,
    pub hyp: bool,
    pub ril: bool,
    pub dpt: bool,
    pub e2h: bool,
}

impl Features {
    /// From the C interface's number.
    pub fn from_bits(bits: u64) -> Features {
        Features {
            s1p: bit(bits, 0),
            s2p: bit(bits, 1),
            asid16: bit(bits, 2),
            vmid16: bit(bits, 3),
            hyp: bit(bits, 4),
            ril: bit(bits, 5),
            dpt: bit(bits, 6),
            e2h: bit(bits, 7),
        }
    }
}

/// What consuming a legal command does, apart from moving RD.
#[derive(Clone, Copy, Debug, PartialEq, Eq)]
pub enum Effect {
    Nothing,
    /// An ASID or VMID wider than the features allow: legal, removes nothing.
    TooWide,
    /// CMD_SYNC with CS 1, the one that is counted.
    Signal,
    Remove(Scope),
    /// The same of the second table.
    RemoveRegions(Regions),
}

/// Highest and lowest bit, counted over the whole 128-bit command.
pub type Bits = (u32, u32);
const STREAM: Bits = (63, 32);
const LEAF: Bits = (64, 64);
const VMID: Bits = (47, 32);
const ASID: Bits = (63, 48);
const ADDRESS: Bits = (127, 76);

/// The parts named for a code beside the code itself; None for other codes.
/// Bits that aren't looked at are named too: they make nothing illegal.
fn named(code: u64) -> Option<&'static [Bits]> {
    Some(match code {
        0x01 | 0x02 => &[(9, 8), (127, 11)],
        0x03 => &[STREAM, LEAF],
        0x04 => &[STREAM, (68, 64)],
        0x05 => &[(31, 12), STREAM, LEAF],
        0x06 => &[STREAM],
        0x10 | 0x28 => &[VMID],
        0x11 => &[VMID, ASID],
        0x12 => &[VMID, ASID, LEAF, ADDRESS],
        0x13 => &[VMID, LEAF, ADDRESS],
        0x20 | 0x30 => &[],
        0x21 => &[ASID],
        0x22 => &[ASID, LEAF, ADDRESS],
        0x23 => &[LEAF, ADDRESS],
        0x2A => &[VMID, LEAF, (115, 76)],
        0x46 => &[(13, 12), (27, 22), (63, 32), (127, 64)],
        0x70 => &[],
        0x73 => &[LEAF, (75, 72), (119, 76)],
        _ => return None,
    })
}

/// The fields of a range, in the commands that have an address; None in others.
pub fn ranged(code: u64, low: u64, high: u64) -> Option<Fields> {
    matches!(code, 0x12 | 0x13 | 0x22 | 0x23 | 0x2A).then(|| Fields::of(low, high))
}

/// Whether a bit outside the named parts is set. Without stage 2 the VMID
/// counts as unnamed, and without RIL the fields of a range.
fn reserved_bit_set(low: u64, high: u64, names: &[Bits], features: Features) -> bool {
    let mut rest = ((high as u128) << 64 | low as u128) & !0xFF;
    let fields = ranged(part(low, 7, 0), low, high).filter(|_| features.ril);
    let own = fields.map_or(&[][..], |fields| fields.named());
    for &(top, bottom) in names.iter().chain(own) {
        if (top, bottom) != VMID || features.s2p {
            rest &= !((u128::MAX >> (127 + bottom - top)) << bottom);
        }
    }
    rest != 0
}

/// The features that a code can't do without.
pub fn supported(code: u64, features: Features) -> bool {
    match code {
        0x05 | 0x06 | 0x10..=0x13 => features.s1p,
        0x20..=0x23 => features.s1p && features.hyp,
        0x28 | 0x2A => features.s2p,
        0x70 | 0x73 => features.dpt,
        _ => true,
    }
}

/// Whether the command holds an ASID or VMID above what the features allow.
fn too_wide(low: u64, names: &[Bits], features: Features) -> bool {
    (names.contains(&ASID) && !features.asid16 && part(low, 63, 56) != 0)
        || (names.contains(&VMID) && !features.vmid16 && part(low, 47, 40) != 0)
}

/// Values of named parts that are not allowed: CS 3 of CMD_SYNC, and a range that
/// Arm has Reserved. Without RIL a field of a range is a Reserved bit before that.
fn bad_parameter(code: u64, low: u64, high: u64) -> bool {
    let fields = ranged(code, low, high);
    code == 0x46 && part(low, 13, 12) == 3 || fields.is_some_and(|fields| fields.bad())
}

/// The effect of a legal command, or the first reason why it's illegal.
pub fn decode(low: u64, high: u64, features: Features) -> Result<Effect, Reason> {
    let code = part(low, 7, 0);
    let names = named(code).ok_or(Reason::UnknownCode)?;
    if !supported(code, features) {
        return Err(Reason::FeatureAbsent);
    }
    if reserved_bit_set(low, high, names, features) {
        return Err(Reason::ReservedBit);
    }
    if bad_parameter(code, low, high) {
        return Err(Reason::BadParameter);
    }
    if too_wide(low, names, features) {
        return Ok(Effect::TooWide);
    }
    Ok(match code {
        0x01 | 0x02 => Effect::Nothing,
        0x46 if part(low, 13, 12) == 1 => Effect::Signal,
        0x46 => Effect::Nothing,
        0x70 => Effect::RemoveRegions(Regions::All),
        0x73 => Effect::RemoveRegions(region(high)),
        _ => Effect::Remove(scope(code, low, high, features)),
    })
}

/// The rows that a legal removing command is after.
fn scope(code: u64, low: u64, high: u64, features: Features) -> Scope {
    // 20 to 23 have no VMID: it is Reserved there, and so it is 0.
    let vmid = part(low, 47, 32);
    let asid = part(low, 63, 48);
    let leaf = bit(high, 0);
    // The field keeps the address's own places; the bits below are dropped.
    let address = part(high, 63, 12) << 12;
    let extent = range::extent(address, Fields::of(low, high));
    let page = Page { vmid, leaf, extent };
    match code {
        0x03..=0x06 => stream_scope(code, low, high),
        0x10 => Scope::Stage1 { vmid },
        0x11 => Scope::Space { vmid, asid },
        0x12 => Scope::Stage1Page(page, Some(asid)),
        0x13 => Scope::Stage1Page(page, None),
        0x20 => Scope::Hypervisor,
        0x21 => Scope::HypervisorSpace { asid },
        0x22 if features.e2h => Scope::El2E2hPage(page, Some(asid)),
        0x23 if features.e2h => Scope::El2E2hPage(page, None),
        0x22 | 0x23 => Scope::El2Page(page),
        0x28 => Scope::BothStages { vmid },
        0x2A => Scope::Stage2Page(page),
        _ => Scope::Everything,
    }
}

/// The region of code 73. Its address has bits 55:12, of which 55:52 are treated as
/// 0 and those below 12 are 0.
fn region(high: u64) -> Regions {
    Regions::Within {
        address: part(high, 51, 12) << 12,
        size: part(high, 11, 8),
        leaf: bit(high, 0),
    }
}

fn stream_scope(code: u64, low: u64, high: u64) -> Scope {
    let stream = part(low, 63, 32);
    let substream = part(low, 31, 12);
    // Bit 64 is Leaf in 03 and 05, but part of Range in 04.
    let leaf = bit(high, 0) && code != 0x04;
    let low_bits = if code == 0x04 {
        part(high, 4, 0) + 1
    } else {
        0
    };
    match code {
        0x03 | 0x04 => Scope::Streams {
            stream,
            low_bits,
            leaf,
        },
        0x05 => Scope::Substream {
            stream,
            substream,
            leaf,
        },
        _ => Scope::Descriptors { stream },
    }
}
