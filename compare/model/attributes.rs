//! Memory type, shareability and hints (document 01, The kept memory and A
//! transaction). Combining goes by the paper's rule; there is no table here.

use super::words::{part, with_part};

pub const OSH: u64 = 2;
const ISH: u64 = 3;

/// The least code of a Normal type; those below are Device types.
const NORMAL: u64 = 4;
/// iNC-oNC.
const NON_CACHEABLE: u64 = 5;

/// Inner and outer, as the places of their bits in MemAttr and in the hints.
pub const HALVES: [u32; 2] = [0, 1];

#[derive(Clone, Copy, Debug, PartialEq, Eq)]
pub struct Attributes {
    pub memattr: u64,
    pub sh: u64,
    pub hints: u64,
}

/// Device, or Normal with both halves given.
pub fn memattr_ok(memattr: u64) -> bool {
    memattr < NORMAL || (memattr < 16 && memattr % 4 != 0)
}

pub fn sh_ok(sh: u64) -> bool {
    matches!(sh, 0 | OSH | ISH)
}

/// Whether a half is write-through or write-back.
pub fn cacheable(memattr: u64, half: u32) -> bool {
    memattr >= NORMAL && part(memattr, 2 * half + 1, 2 * half) >= 2
}

impl Attributes {
    /// Within 4, 2 and 6 bits, with no hint where nothing is cacheable.
    pub fn well_formed(&self) -> bool {
        memattr_ok(self.memattr)
            && sh_ok(self.sh)
            && self.hints < 64
            && HALVES
                .iter()
                .all(|&half| cacheable(self.memattr, half) || self.hint(half) == 0)
    }

    /// RA, WA and TR of a half, lowest bit first.
    fn hint(&self, half: u32) -> u64 {
        part(self.hints, 3 * half + 2, 3 * half)
    }

    pub fn set_hint(&mut self, half: u32, hint: u64) {
        self.hints = with_part(self.hints, 3 * half + 2, 3 * half, hint);
    }

    /// Stage 2's type and shareability on top of these; the hints stay.
    pub fn combined(&self, other: Attributes) -> Attributes {
        Attributes {
            memattr: combined_type(self.memattr, other.memattr),
            sh: combined_sh(self.sh, other.sh),
            hints: self.hints,
        }
    }

    /// The last step: what caches nothing is outer shareable and has no hints.
    pub fn settled(&self) -> Attributes {
        let mut settled = *self;
        if self.memattr < NORMAL || self.memattr == NON_CACHEABLE {
            settled.sh = OSH;
        }
        for half in HALVES {
            if !cacheable(self.memattr, half) {
                settled.set_hint(half, 0);
            }
        }
        settled
    }
}

/// The less permissive type. NC, WT, WB have rising codes, as have the Device
/// types, so that the lesser number wins within each.
fn combined_type(first: u64, second: u64) -> u64 {
    match (first < NORMAL, second < NORMAL) {
        (true, false) => first,
        (false, true) => second,
        (true, true) => first.min(second),
        (false, false) => {
            let outer = part(first, 3, 2).min(part(second, 3, 2));
            let inner = part(first, 1, 0).min(part(second, 1, 0));
            4 * outer + inner
        }
    }
}

/// The wider shareability; the codes aren't in that order.
fn combined_sh(first: u64, second: u64) -> u64 {
    if first == OSH || second == OSH {
        OSH
    } else {
        first.max(second)
    }
}
