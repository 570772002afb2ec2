//! The rows of the second table, as values.

use crate::error::{demand, FieldError};
use crate::layout::{self, get, put, REGION_WORDS};
use crate::stage::placed;

numbered! {
    /// The size of a region of the device permission table.
    RegionSize {
        /// 4 KiB.
        Kb4 = layout::_4KB, "4KB";
        /// 16 KiB.
        Kb16 = layout::_16KB, "16KB";
        /// 64 KiB.
        Kb64 = layout::_64KB, "64KB";
        /// 2 MiB.
        Mb2 = layout::_2MB, "2MB";
        /// 32 MiB.
        Mb32 = layout::_32MB, "32MB";
        /// 512 MiB.
        Mb512 = layout::_512MB, "512MB";
        /// 1 GiB.
        Gb1 = layout::_1GB, "1GB";
        /// 16 GiB.
        Gb16 = layout::_16GB, "16GB";
        /// 64 GiB.
        Gb64 = layout::_64GB, "64GB";
        /// 512 GiB.
        Gb512 = layout::_512GB, "512GB";
    }
}

impl RegionSize {
    /// The size in bytes.
    ///
    /// ```
    /// use tahvenno::RegionSize;
    /// assert_eq!(RegionSize::Mb2.bytes(), 2 << 20);
    /// ```
    pub const fn bytes(self) -> u64 {
        1 << self.log2()
    }

    const fn log2(self) -> u32 {
        match self {
            Self::Kb4 => 12,
            Self::Kb16 => 14,
            Self::Kb64 => 16,
            Self::Mb2 => 21,
            Self::Mb32 => 25,
            Self::Mb512 => 29,
            Self::Gb1 => 30,
            Self::Gb16 => 34,
            Self::Gb64 => 36,
            Self::Gb512 => 39,
        }
    }
}

/// A row of the second table in use.
///
/// ```
/// use tahvenno::{Region, RegionSize};
/// let region = Region { size: RegionSize::Mb2, base: 0x20_0000, last_level: true };
/// assert_eq!(Region::parse(&region.words()?)?, Some(region));
/// # Ok::<(), tahvenno::FieldError>(())
/// ```
#[derive(Clone, Copy, Debug, PartialEq, Eq, Hash)]
pub struct Region {
    /// How large it is.
    pub size: RegionSize,
    /// Where it begins: a multiple of the size below 2^52.
    pub base: u64,
    /// Last-level.
    pub last_level: bool,
}

impl Region {
    /// The row's two words, or what of it is out of range. A fill never refuses them with 9.
    ///
    /// ```
    /// use tahvenno::{FieldError, Region, RegionSize};
    /// let region = Region { size: RegionSize::Kb64, base: 0x8000, last_level: true };
    /// assert_eq!(region.words(), Err(FieldError::Base));
    /// ```
    pub fn words(&self) -> Result<[u64; REGION_WORDS], FieldError> {
        demand(placed(self.base, self.size.log2()), FieldError::Base)?;
        let last_level = put(layout::REGION_LAST_LEVEL, self.last_level.into());
        Ok([layout::REGION_VALID | last_level | put(layout::REGION_SIZE, self.size.into()), self.base])
    }

    /// The row that two words are; `None` if they are an empty one. An error is what makes them ill formed.
    ///
    /// ```
    /// use tahvenno::Region;
    /// assert_eq!(Region::parse(&[0, 0x1234]), Ok(None));
    /// assert!(Region::parse(&[u64::MAX, 0]).is_err());
    /// ```
    pub fn parse(words: &[u64; REGION_WORDS]) -> Result<Option<Self>, FieldError> {
        let [w0, base] = *words;
        if w0 == 0 {
            return Ok(None);
        }
        demand(w0 & layout::REGION_VALID != 0, FieldError::Valid)?;
        let size = get(layout::REGION_SIZE, w0).try_into().map_err(|_| FieldError::Size)?;
        let region = Self { size, base, last_level: w0 & layout::REGION_LAST_LEVEL != 0 };
        demand(region.words()? == *words, FieldError::Unnamed)?;
        Ok(Some(region))
    }
}
