//! A transaction.

use core::fmt;

use crate::attributes::Attributes;
use crate::layout;
use crate::refusal::Refusal;
use crate::unit;

/// One access of a device.
#[derive(Clone, Copy, Debug, PartialEq, Eq, Hash)]
pub struct Access {
    /// The device's stream.
    pub stream: u32,
    /// The substream; 2^20 or more matches no CD row.
    pub substream: u32,
    /// The address.
    pub address: u64,
    /// It writes, else it reads.
    pub write: bool,
    /// It fetches an instruction.
    pub instruction: bool,
    /// It is privileged.
    pub privileged: bool,
    /// The attributes that it comes with.
    pub attributes: Attributes,
}

impl Access {
    fn how(&self) -> u64 {
        let bit = |set, bit| if set { bit } else { 0 };
        bit(self.write, layout::WRITE)
            | bit(self.instruction, layout::INSTRUCTION)
            | bit(self.privileged, layout::PRIVILEGED)
    }
}

numbered! {
    /// The step at which no row answers. Walk the guest's tables for it, and fill.
    Miss {
        /// No STE row of the stream.
        Ste = layout::MISS_STE, "a miss of the STE";
        /// No CD row of the stream and substream.
        Cd = layout::MISS_CD, "a miss of the CD";
        /// No stage 1 row for the address.
        Stage1 = layout::MISS_STAGE1, "a miss of stage 1";
        /// No stage 2 row for the address.
        Stage2 = layout::MISS_STAGE2, "a miss of stage 2";
    }
}

/// What comes of an access.
#[derive(Clone, Copy, Debug, PartialEq, Eq, Hash)]
pub enum Outcome {
    /// It goes on, with this address and these attributes.
    Address {
        /// The address.
        address: u64,
        /// Type, shareability and hints.
        attributes: Attributes,
        /// It fetches an instruction.
        instruction: bool,
        /// It is privileged.
        privileged: bool,
    },
    /// The stream's transactions are aborted.
    Abort,
    /// A row is missing.
    Miss(Miss),
}

impl fmt::Display for Outcome {
    fn fmt(&self, f: &mut fmt::Formatter) -> fmt::Result {
        match self {
            Self::Address { address, .. } => write!(f, "an address, {address:x}"),
            Self::Abort => f.write_str("an abort"),
            Self::Miss(miss) => miss.fmt(f),
        }
    }
}

/// Translates one access. Nothing is stored.
///
/// ```
/// use tahvenno::*;
/// let mut kept = [0; kept_words(1)];
/// empty(&mut kept, 0, true)?;
/// let access = Access {
///     stream: 5,
///     substream: 0,
///     address: 0x1234,
///     write: true,
///     instruction: false,
///     privileged: false,
///     attributes: Attributes::of(MemAttr::WRITE_BACK),
/// };
/// assert_eq!(translate(&kept, &access)?, Outcome::Miss(Miss::Ste));
/// # Ok::<(), Refusal>(())
/// ```
pub fn translate(kept: &[u64], access: &Access) -> Result<Outcome, Refusal> {
    let &Access { stream, substream, address, attributes: Attributes { memattr, sh, hints }, .. } = access;
    let attributes = [memattr.into(), sh.into(), hints.bits()];
    let [outcome, address, memattr, sh, hints, instruction, privileged, _] =
        unit::translate(kept, [stream, substream], address, access.how(), attributes)?;
    Ok(match outcome {
        layout::ADDRESS => Outcome::Address {
            address,
            attributes: Attributes { memattr: unit::known(memattr), sh: unit::known(sh), hints: unit::known(hints) },
            instruction: instruction == 1,
            privileged: privileged == 1,
        },
        layout::ABORT => Outcome::Abort,
        miss => Outcome::Miss(unit::known(miss)),
    })
}
