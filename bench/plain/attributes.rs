//! Memory types, shareability and allocation hints.

use super::bits::field;
use super::row::Row;

pub const NSH: u8 = 0;
pub const OSH: u8 = 2;
pub const ISH: u8 = 3;

const NC: u8 = 1;
/// Both halves.
const NORMAL_NC: u8 = NC << 2 | NC;

#[derive(Clone, Copy)]
pub struct Attributes {
    pub memattr: u8,
    pub sh: u8,
    pub hints: u8,
}

/// A half of a memory type, and where its hints stand.
#[derive(Clone, Copy)]
pub enum Half {
    Inner,
    Outer,
}

pub const HALVES: [Half; 2] = [Half::Inner, Half::Outer];

impl Half {
    fn of(self, memattr: u8) -> u8 {
        match self {
            Half::Inner => memattr & 3,
            Half::Outer => memattr >> 2,
        }
    }

    pub fn is_cacheable(self, memattr: u8) -> bool {
        !is_device(memattr) && self.of(memattr) > NC
    }

    fn hints_place(self) -> u32 {
        match self {
            Half::Inner => 0,
            Half::Outer => 3,
        }
    }
}

pub fn is_device(memattr: u8) -> bool {
    memattr < 4
}

/// A Normal type has no half of 0.
pub fn is_memattr(memattr: u8) -> bool {
    is_device(memattr) || (memattr < 16 && memattr & 3 != 0)
}

impl Attributes {
    /// Of a last-level row of a stage.
    pub fn of_row(row: &Row) -> Attributes {
        let payload = row.payload.into();
        Attributes {
            memattr: field(payload, 3, 0) as u8,
            sh: field(payload, 5, 4) as u8,
            hints: field(payload, 11, 6) as u8,
        }
    }

    pub fn well_formed(&self) -> bool {
        let hints = |half: Half| half.is_cacheable(self.memattr) || self.half_hints(half) == 0;
        is_memattr(self.memattr)
            && matches!(self.sh, NSH | OSH | ISH)
            && self.hints < 64
            && HALVES.into_iter().all(hints)
    }

    fn half_hints(&self, half: Half) -> u8 {
        self.hints >> half.hints_place() & 7
    }

    /// RA, WA, TR from the lowest bit.
    pub fn set_hints(&mut self, half: Half, hints: u8) {
        let place = half.hints_place();
        self.hints = self.hints & !(7 << place) | hints << place;
    }

    /// What two stages make of it: the stricter of each, hints of the first.
    pub fn combine(self, second: Attributes) -> Attributes {
        Attributes {
            memattr: combine_types(self.memattr, second.memattr),
            sh: combine_sh(self.sh, second.sh),
            hints: self.hints,
        }
    }

    /// As it leaves the unit.
    pub fn consistent(mut self) -> Attributes {
        if is_device(self.memattr) || self.memattr == NORMAL_NC {
            self.sh = OSH;
        }
        for half in HALVES {
            if !half.is_cacheable(self.memattr) {
                self.set_hints(half, 0);
            }
        }
        self
    }
}

/// Device types stand below Normal ones and NC below WT below WB, so the lower one wins.
fn combine_types(first: u8, second: u8) -> u8 {
    if is_device(first) || is_device(second) {
        return first.min(second);
    }
    let half = |half: Half| half.of(first).min(half.of(second));
    half(Half::Outer) << 2 | half(Half::Inner)
}

fn combine_sh(first: u8, second: u8) -> u8 {
    match (first, second) {
        (OSH, _) | (_, OSH) => OSH,
        (ISH, _) | (_, ISH) => ISH,
        _ => NSH,
    }
}
