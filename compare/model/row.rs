//! Rows: their parts, and which are well formed (document 01, The kept memory;
//! document 02, T-04 and T-05).

use super::attributes::{memattr_ok, sh_ok, Attributes};
use super::words::{bit, part, with_part};
use crate::limits::{ADDRESS, BLOCKS, SPANS};

#[derive(Clone, Copy, Debug, PartialEq, Eq)]
pub enum Kind {
    Ste,
    Cd,
    Stage1,
    Stage2,
}

/// Whose mappings a stage 1 row is of: a guest's, or as its mark says the
/// hypervisor's own, without ASIDs or with them.
#[derive(Clone, Copy, Debug, PartialEq, Eq)]
pub enum Regime {
    Guest,
    El2,
    El2E2h,
}

/// The four words of a row.
#[derive(Clone, Copy, Debug, PartialEq, Eq)]
pub struct Row(pub [u64; 4]);

impl Row {
    /// Whether word 0 says that the row is in use; an empty row has no kind.
    pub fn used(&self) -> bool {
        self.0[0] != 0
    }

    pub fn kind(&self) -> Kind {
        match part(self.0[0], 2, 1) {
            0 => Kind::Ste,
            1 => Kind::Cd,
            2 => Kind::Stage1,
            _ => Kind::Stage2,
        }
    }

    pub fn last_level(&self) -> bool {
        bit(self.0[0], 3)
    }

    pub fn global(&self) -> bool {
        bit(self.0[0], 4)
    }

    /// None if the row has both marks, which no row may have.
    pub fn regime(&self) -> Option<Regime> {
        match (bit(self.0[0], 11), bit(self.0[0], 12)) {
            (false, false) => Some(Regime::Guest),
            (true, false) => Some(Regime::El2),
            (false, true) => Some(Regime::El2E2h),
            (true, true) => None,
        }
    }

    /// Whether the row has a mark; of the rows of a memory only those of stage 1 do.
    pub fn marked(&self) -> bool {
        self.regime() != Some(Regime::Guest)
    }

    pub fn span(&self) -> u64 {
        part(self.0[0], 10, 5)
    }

    pub fn vmid(&self) -> u64 {
        part(self.0[0], 31, 16)
    }

    pub fn asid(&self) -> u64 {
        part(self.0[0], 47, 32)
    }

    pub fn stream(&self) -> u64 {
        part(self.0[1], 31, 0)
    }

    pub fn substream(&self) -> u64 {
        part(self.0[1], 51, 32)
    }

    pub fn config(&self) -> u64 {
        part(self.0[1], 54, 52)
    }

    pub fn input(&self) -> u64 {
        self.0[2]
    }

    pub fn output(&self) -> u64 {
        self.0[3]
    }

    /// Type, shareability and hints that a last-level stage row holds; a stage
    /// 2 row has no hints, and its bits there are 0.
    pub fn attributes(&self) -> Attributes {
        Attributes {
            memattr: part(self.0[0], 51, 48),
            sh: part(self.0[0], 53, 52),
            hints: part(self.0[0], 59, 54),
        }
    }

    /// The last address of an aligned span.
    pub fn last(&self) -> u64 {
        self.input() | ((1 << self.span()) - 1)
    }

    /// Whether a stage row's span holds the address, all 64 bits of it.
    pub fn covers(&self, address: u64) -> bool {
        address >> self.span() == self.input() >> self.span()
    }

    /// Whether the row may stand in the table: empty, or in use and sound.
    pub fn acceptable(&self) -> bool {
        !self.used() || self.sound()
    }

    /// Whether the row is in use and keeps every rule of its kind.
    pub fn sound(&self) -> bool {
        if !bit(self.0[0], 0) || self.has_unnamed_bits() {
            return false;
        }
        match (self.kind(), self.last_level()) {
            (Kind::Ste, true) => {
                matches!(self.config(), 0 | 4..=7) && memattr_ok(part(self.0[0], 52, 49))
            }
            (Kind::Ste, false) => {
                BLOCKS.contains(&self.span()) && aligned(self.stream(), self.span())
            }
            (Kind::Cd, _) => true,
            (_, false) => self.reach_ok(),
            (Kind::Stage1, true) => {
                self.reach_ok() && self.output_ok() && self.attributes().well_formed()
            }
            (Kind::Stage2, true) => {
                let held = self.attributes();
                self.reach_ok() && self.output_ok() && memattr_ok(held.memattr) && sh_ok(held.sh)
            }
        }
    }

    fn reach_ok(&self) -> bool {
        SPANS.contains(&self.span()) && aligned(self.input(), self.span()) && self.in_one_half()
    }

    /// Bits 63:52 all zero, or at stage 1 all one, from the first address of an
    /// aligned span to its last. One past the last is not formed: it may be 2^64.
    fn in_one_half(&self) -> bool {
        let half = |address| part(address, 63, 52);
        let first = half(self.input());
        let allowed = first == LOWER || (first == HIGHER && self.kind() == Kind::Stage1);
        allowed && half(self.last()) == first
    }

    fn output_ok(&self) -> bool {
        self.output() < ADDRESS && aligned(self.output(), self.span())
    }

    /// Parts that the paper doesn't name for the kind and level have to be 0.
    fn has_unnamed_bits(&self) -> bool {
        let mut rest = self.0;
        // Valid, kind and last-level belong to every row in use.
        rest[0] = with_part(rest[0], 3, 0, 0);
        let own = named(self.kind(), self.last_level()).iter();
        for &(word, high, low) in own.chain(self.space()) {
            rest[word] = with_part(rest[word], high, low, 0);
        }
        rest != [0; 4]
    }

    /// The parts of a stage 1 row that say whose it is. Of two marks neither is
    /// named, nor is a mark on another kind.
    fn space(&self) -> &'static [Part] {
        match (self.kind(), self.regime()) {
            (Kind::Stage1, Some(Regime::Guest)) => &[VMID, ASID, GLOBAL],
            (Kind::Stage1, Some(Regime::El2)) => &[EL2],
            (Kind::Stage1, Some(Regime::El2E2h)) => &[EL2_E2H, ASID, GLOBAL],
            _ => &[],
        }
    }
}

/// Bits 63:52 of the addresses of either half.
const LOWER: u64 = 0;
const HIGHER: u64 = 0xFFF;

/// Word, highest and lowest bit of a part.
type Part = (usize, u32, u32);
const GLOBAL: Part = (0, 4, 4);
const SPAN: Part = (0, 10, 5);
const EL2: Part = (0, 11, 11);
const EL2_E2H: Part = (0, 12, 12);
const VMID: Part = (0, 31, 16);
const ASID: Part = (0, 47, 32);
const STREAM: Part = (1, 31, 0);
const SUBSTREAM: Part = (1, 51, 32);
const CONFIG: Part = (1, 54, 52);
const INPUT: Part = (2, 63, 0);
const OUTPUT: Part = (3, 63, 0);
const OVERRIDES: Part = (0, 62, 48);
const TYPE_TO_HINTS: Part = (0, 59, 48);
const TYPE_AND_SH: Part = (0, 53, 48);

/// What a row of the kind has, but for what says whose a stage 1 row is.
fn named(kind: Kind, last_level: bool) -> &'static [Part] {
    match (kind, last_level) {
        (Kind::Ste, true) => &[VMID, STREAM, CONFIG, OVERRIDES],
        (Kind::Ste, false) => &[STREAM, SPAN],
        (Kind::Cd, true) => &[ASID, STREAM, SUBSTREAM],
        (Kind::Cd, false) => &[STREAM],
        (Kind::Stage1, true) => &[SPAN, INPUT, OUTPUT, TYPE_TO_HINTS],
        (Kind::Stage1, false) => &[SPAN, INPUT],
        (Kind::Stage2, true) => &[VMID, SPAN, INPUT, OUTPUT, TYPE_AND_SH],
        (Kind::Stage2, false) => &[VMID, SPAN, INPUT],
    }
}

fn aligned(value: u64, span: u64) -> bool {
    value % (1 << span) == 0
}
