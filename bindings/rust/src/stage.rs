//! Rows of the two stages.

use crate::attributes::{Attributes, Hints, MemAttr, Shareability};
use crate::error::{demand, FieldError};
use crate::layout::{self, get, put, LOWER_HALF, MAX_SPAN, MIN_SPAN};

/// Whose mappings a stage 1 row is of. The hypervisor's are marked: no transaction and no double sees them.
#[derive(Clone, Copy, Debug, PartialEq, Eq, Hash)]
pub enum Regime {
    /// A guest's.
    Guest {
        /// The virtual machine.
        vmid: u16,
        /// The address space.
        asid: u16,
        /// For every ASID.
        global: bool,
    },
    /// The hypervisor's, without ASIDs.
    El2,
    /// The hypervisor's, with ASIDs.
    El2E2h {
        /// The address space.
        asid: u16,
        /// For every ASID.
        global: bool,
    },
}

impl Regime {
    fn bits(self) -> u64 {
        let space = |asid: u16, global: bool| put(layout::ASID, asid.into()) | put(layout::GLOBAL, global.into());
        match self {
            Self::Guest { vmid, asid, global } => put(layout::VMID, vmid.into()) | space(asid, global),
            Self::El2 => layout::EL2,
            Self::El2E2h { asid, global } => layout::EL2_E2H | space(asid, global),
        }
    }

    fn of_bits(word: u64) -> Result<Self, FieldError> {
        let [vmid, asid] = [layout::VMID, layout::ASID].map(|mask| get(mask, word) as u16);
        let [global, el2, el2_e2h] = [layout::GLOBAL, layout::EL2, layout::EL2_E2H].map(|mask| word & mask != 0);
        match (el2, el2_e2h) {
            (false, false) => Ok(Self::Guest { vmid, asid, global }),
            (true, false) => Ok(Self::El2),
            (false, true) => Ok(Self::El2E2h { asid, global }),
            (true, true) => Err(FieldError::Marks),
        }
    }
}

/// Whether an address begins a span in the lower half, where output addresses are and input addresses of stage 2.
pub(crate) fn placed(address: u64, span: u32) -> bool {
    address <= LOWER_HALF && address % (1 << span) == 0
}

/// Whether an address begins a span in either half, where input addresses of stage 1 are.
fn in_a_half(address: u64, span: u32) -> bool {
    placed(address & LOWER_HALF, span) && (address <= LOWER_HALF || address >= !LOWER_HALF)
}

/// The bits of a span that a stage row may have.
fn span_bits(span: u8) -> Result<u64, FieldError> {
    let span = span.into();
    demand((MIN_SPAN..=MAX_SPAN).contains(&span), FieldError::Span)?;
    Ok(put(layout::SPAN, span))
}

fn span_of(word: u64) -> u8 {
    get(layout::SPAN, word) as u8
}

/// A stage 1 row, last-level: a page or block.
#[derive(Clone, Copy, Debug, PartialEq, Eq, Hash)]
pub struct Stage1 {
    /// Whose it is.
    pub regime: Regime,
    /// Its size is 2^span bytes; 12 to 48.
    pub span: u8,
    /// The first input address, a multiple of the size; its bits 63:52 are all 0 or all 1.
    pub input: u64,
    /// The first output address, a multiple of the size below 2^52.
    pub output: u64,
    /// What it makes of the attributes.
    pub attributes: Attributes,
}

impl Stage1 {
    /// The four words, without the tag.
    pub(crate) fn words(&self) -> Result<[u64; 4], FieldError> {
        let &Self { regime, span, input, output, attributes } = self;
        let [w0, ..] = Stage1Branch { regime, span, input }.words()?;
        demand(placed(output, span.into()), FieldError::Output)?;
        Ok([w0 | attributes.payload()?, 0, input, output])
    }

    pub(crate) fn of_words(words: &[u64; 4]) -> Result<Self, FieldError> {
        let Stage1Branch { regime, span, input } = Stage1Branch::of_words(words)?;
        Ok(Self { regime, span, input, output: words[3], attributes: Attributes::of_payload(words[0])? })
    }
}

/// A stage 1 row that is not last-level.
#[derive(Clone, Copy, Debug, PartialEq, Eq, Hash)]
pub struct Stage1Branch {
    /// Whose it is.
    pub regime: Regime,
    /// It is about 2^span bytes; 12 to 48.
    pub span: u8,
    /// The first input address, a multiple of the size; its bits 63:52 are all 0 or all 1.
    pub input: u64,
}

impl Stage1Branch {
    /// The four words, without the tag.
    pub(crate) fn words(&self) -> Result<[u64; 4], FieldError> {
        let bits = span_bits(self.span)?;
        demand(in_a_half(self.input, self.span.into()), FieldError::Input)?;
        Ok([self.regime.bits() | bits, 0, self.input, 0])
    }

    pub(crate) fn of_words(words: &[u64; 4]) -> Result<Self, FieldError> {
        Ok(Self { regime: Regime::of_bits(words[0])?, span: span_of(words[0]), input: words[2] })
    }
}

/// A stage 2 row, last-level: a page or block.
#[derive(Clone, Copy, Debug, PartialEq, Eq, Hash)]
pub struct Stage2 {
    /// The virtual machine.
    pub vmid: u16,
    /// Its size is 2^span bytes; 12 to 48.
    pub span: u8,
    /// The first input address, a multiple of the size below 2^52.
    pub input: u64,
    /// The first output address, likewise.
    pub output: u64,
    /// The memory type to combine.
    pub memattr: MemAttr,
    /// The shareability to combine.
    pub sh: Shareability,
}

impl Stage2 {
    /// The four words, without the tag.
    pub(crate) fn words(&self) -> Result<[u64; 4], FieldError> {
        let &Self { vmid, span, input, output, memattr, sh } = self;
        let [w0, ..] = Stage2Branch { vmid, span, input }.words()?;
        demand(placed(output, span.into()), FieldError::Output)?;
        Ok([w0 | Attributes { memattr, sh, hints: Hints::NONE }.payload()?, 0, input, output])
    }

    pub(crate) fn of_words(words: &[u64; 4]) -> Result<Self, FieldError> {
        let Stage2Branch { vmid, span, input } = Stage2Branch::of_words(words);
        let Attributes { memattr, sh, .. } = Attributes::of_payload(words[0])?;
        Ok(Self { vmid, span, input, output: words[3], memattr, sh })
    }
}

/// A stage 2 row that is not last-level.
#[derive(Clone, Copy, Debug, PartialEq, Eq, Hash)]
pub struct Stage2Branch {
    /// The virtual machine.
    pub vmid: u16,
    /// It is about 2^span bytes; 12 to 48.
    pub span: u8,
    /// The first input address, a multiple of the size below 2^52.
    pub input: u64,
}

impl Stage2Branch {
    /// The four words, without the tag.
    pub(crate) fn words(&self) -> Result<[u64; 4], FieldError> {
        let bits = span_bits(self.span)?;
        demand(placed(self.input, self.span.into()), FieldError::Input)?;
        Ok([put(layout::VMID, self.vmid.into()) | bits, 0, self.input, 0])
    }

    pub(crate) fn of_words(words: &[u64; 4]) -> Self {
        Self { vmid: get(layout::VMID, words[0]) as u16, span: span_of(words[0]), input: words[2] }
    }
}
