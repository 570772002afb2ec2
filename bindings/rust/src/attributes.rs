//! MemAttr, shareability and hints.

use crate::error::{demand, FieldError, NoSuchNumber};
use crate::layout::{self, get, inner, normal, outer, put};

numbered! {
    /// A Device type.
    Device {
        /// No gathering, no reordering, no early acknowledgement.
        NGnRnE = layout::DEVICE_NGNRNE, "Device nGnRnE";
        /// No gathering, no reordering.
        NGnRE = layout::DEVICE_NGNRE, "Device nGnRE";
        /// No gathering.
        NGRE = layout::DEVICE_NGRE, "Device nGRE";
        /// All three allowed.
        GRE = layout::DEVICE_GRE, "Device GRE";
    }
}

numbered! {
    /// How a half of Normal memory is cached.
    Cache {
        /// Not at all.
        NonCacheable = layout::NC, "not cached";
        /// A write goes through.
        WriteThrough = layout::WT, "write-through";
        /// A write is kept.
        WriteBack = layout::WB, "write-back";
    }
}

numbered! {
    /// Who sees the same memory.
    Shareability {
        /// Not shareable.
        Nsh = layout::NSH, "not shareable";
        /// Outer shareable.
        Osh = layout::OSH, "outer shareable";
        /// Inner shareable.
        Ish = layout::ISH, "inner shareable";
    }
}

bit_set! {
    /// Hints for the caches. A Device type and a half that is not cached have none.
    Hints {
        /// Inner half: allocate on a read.
        INNER_RA,
        /// Inner half: allocate on a write.
        INNER_WA,
        /// Inner half: transient.
        INNER_TR,
        /// Outer half: allocate on a read.
        OUTER_RA,
        /// Outer half: allocate on a write.
        OUTER_WA,
        /// Outer half: transient.
        OUTER_TR,
    }
}

/// The hints of either half.
const INNER: Hints = Hints::INNER_RA.union(Hints::INNER_WA).union(Hints::INNER_TR);
const OUTER: Hints = Hints::OUTER_RA.union(Hints::OUTER_WA).union(Hints::OUTER_TR);

/// A memory type: MemAttr, of which 13 of 16 numbers are one.
#[derive(Clone, Copy, Debug, PartialEq, Eq, Hash)]
pub enum MemAttr {
    /// Device memory.
    Device(Device),
    /// Normal memory by its halves.
    Normal {
        /// How the outer caches take it.
        outer: Cache,
        /// How the inner caches take it.
        inner: Cache,
    },
}

impl MemAttr {
    /// Normal memory, write-back in both halves.
    pub const WRITE_BACK: Self = Self::Normal { outer: Cache::WriteBack, inner: Cache::WriteBack };
    /// Normal memory, cached in neither half.
    pub const NON_CACHEABLE: Self = Self::Normal { outer: Cache::NonCacheable, inner: Cache::NonCacheable };

    /// The hints that this type may have.
    fn allowed(self) -> Hints {
        let of = |half, hints| if half == Cache::NonCacheable { Hints::NONE } else { hints };
        match self {
            Self::Device(_) => Hints::NONE,
            Self::Normal { outer, inner } => of(outer, OUTER) | of(inner, INNER),
        }
    }
}

impl From<MemAttr> for u64 {
    fn from(value: MemAttr) -> u64 {
        match value {
            MemAttr::Device(device) => device.into(),
            MemAttr::Normal { outer, inner } => normal(outer.into(), inner.into()),
        }
    }
}

impl TryFrom<u64> for MemAttr {
    type Error = NoSuchNumber;

    fn try_from(number: u64) -> Result<Self, NoSuchNumber> {
        let half = |half| Cache::try_from(half).map_err(|_| NoSuchNumber(number));
        match Device::try_from(number) {
            Ok(device) => Ok(Self::Device(device)),
            Err(_) => Ok(Self::Normal { outer: half(outer(number))?, inner: half(inner(number))? }),
        }
    }
}

impl core::fmt::Display for MemAttr {
    fn fmt(&self, f: &mut core::fmt::Formatter) -> core::fmt::Result {
        match self {
            Self::Device(device) => device.fmt(f),
            Self::Normal { outer, inner } => write!(f, "Normal, outer {outer}, inner {inner}"),
        }
    }
}

/// The attributes of an access, or those that a last-level stage 1 row gives.
///
/// ```
/// use tahvenno::{Attributes, Hints, MemAttr, Shareability};
/// let shared = Attributes { sh: Shareability::Ish, ..Attributes::of(MemAttr::WRITE_BACK) };
/// assert_eq!(shared.hints, Hints::NONE);
/// ```
#[derive(Clone, Copy, Debug, PartialEq, Eq, Hash)]
pub struct Attributes {
    /// The memory type.
    pub memattr: MemAttr,
    /// The shareability.
    pub sh: Shareability,
    /// The hints.
    pub hints: Hints,
}

impl Attributes {
    /// A memory type, not shareable and without hints.
    ///
    /// ```
    /// use tahvenno::{Attributes, MemAttr, Shareability};
    /// assert_eq!(Attributes::of(MemAttr::NON_CACHEABLE).sh, Shareability::Nsh);
    /// ```
    pub const fn of(memattr: MemAttr) -> Self {
        Self { memattr, sh: Shareability::Nsh, hints: Hints::NONE }
    }

    /// Their bits in word 0 of a last-level stage row.
    pub(crate) fn payload(self) -> Result<u64, FieldError> {
        demand(self.memattr.allowed().contains(self.hints), FieldError::Hints)?;
        Ok(put(layout::MEMATTR, self.memattr.into())
            | put(layout::SH, self.sh.into())
            | put(layout::HINTS, self.hints.bits()))
    }

    /// Those in word 0 of a last-level stage row.
    pub(crate) fn of_payload(word: u64) -> Result<Self, FieldError> {
        Ok(Self {
            memattr: get(layout::MEMATTR, word).try_into().map_err(|_| FieldError::MemAttr)?,
            sh: get(layout::SH, word).try_into().map_err(|_| FieldError::Sh)?,
            hints: get(layout::HINTS, word).try_into().map_err(|_| FieldError::Hints)?,
        })
    }
}
