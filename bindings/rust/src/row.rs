//! The rows of the kept memory, as values.

use crate::error::{demand, FieldError};
use crate::layout::{self, get, put, ROW_WORDS};
use crate::stage::{Stage1, Stage1Branch, Stage2, Stage2Branch};
use crate::ste::{Ste, SteBranch};

/// A CD row, last-level: a stream's substream.
#[derive(Clone, Copy, Debug, PartialEq, Eq, Hash)]
pub struct Cd {
    /// The stream.
    pub stream: u32,
    /// The substream, of 20 bits.
    pub substream: u32,
    /// The address space whose stage 1 rows answer.
    pub asid: u16,
}

/// A CD row that is not last-level.
#[derive(Clone, Copy, Debug, PartialEq, Eq, Hash)]
pub struct CdBranch {
    /// The stream.
    pub stream: u32,
}

/// A row in use. A `Branch` is a row that is not last-level: it answers no transaction, and is there to be removed.
///
/// ```
/// use tahvenno::{MemAttr, Row, Shareability, Stage2};
/// let page = Row::Stage2(Stage2 {
///     vmid: 0,
///     span: 12,
///     input: 0x1000,
///     output: 0x8000,
///     memattr: MemAttr::WRITE_BACK,
///     sh: Shareability::Ish,
/// });
/// assert_eq!(Row::parse(&page.words()?)?, Some(page));
/// # Ok::<(), tahvenno::FieldError>(())
/// ```
#[derive(Clone, Copy, Debug, PartialEq, Eq, Hash)]
pub enum Row {
    /// A stream.
    Ste(Ste),
    /// A block of streams.
    SteBranch(SteBranch),
    /// A substream.
    Cd(Cd),
    /// A stream's substreams.
    CdBranch(CdBranch),
    /// A mapping of stage 1.
    Stage1(Stage1),
    /// A table of stage 1.
    Stage1Branch(Stage1Branch),
    /// A mapping of stage 2.
    Stage2(Stage2),
    /// A table of stage 2.
    Stage2Branch(Stage2Branch),
}

impl Row {
    /// The row's four words, or what of it is out of range. A fill never refuses them with 9.
    ///
    /// ```
    /// use tahvenno::{Cd, FieldError, Row};
    /// let (stream, asid) = (5, 7);
    /// assert!(Row::Cd(Cd { stream, substream: 0xF_FFFF, asid }).words().is_ok());
    /// assert_eq!(Row::Cd(Cd { stream, substream: 0x10_0000, asid }).words(), Err(FieldError::Substream));
    /// ```
    pub fn words(&self) -> Result<[u64; ROW_WORDS], FieldError> {
        let two = |[w0, w1]: [u64; 2]| [w0, w1, 0, 0];
        let mut words = match self {
            Self::Ste(row) => two(row.words()),
            Self::SteBranch(row) => two(row.words()?),
            Self::Cd(row) => two(row.words()?),
            Self::CdBranch(row) => two([0, put(layout::STREAM, row.stream.into())]),
            Self::Stage1(row) => row.words()?,
            Self::Stage1Branch(row) => row.words()?,
            Self::Stage2(row) => row.words()?,
            Self::Stage2Branch(row) => row.words()?,
        };
        words[0] |= self.tag();
        Ok(words)
    }

    /// The row that four words are; `None` if they are an empty one. An error is what makes them ill formed, and a
    /// fill of them would be refused.
    ///
    /// ```
    /// use tahvenno::{layout, FieldError, Row};
    /// assert_eq!(Row::parse(&[0, 1, 2, 3]), Ok(None));
    /// assert_eq!(Row::parse(&[layout::KIND, 0, 0, 0]), Err(FieldError::Valid));
    /// ```
    pub fn parse(words: &[u64; ROW_WORDS]) -> Result<Option<Self>, FieldError> {
        if words[0] == 0 {
            return Ok(None);
        }
        demand(words[0] & layout::VALID != 0, FieldError::Valid)?;
        let row = Self::of_words(words)?;
        // what the value does not hold is what its kind has no name for
        demand(row.words()? == *words, FieldError::Unnamed)?;
        Ok(Some(row))
    }

    /// Valid, kind and last-level.
    fn tag(&self) -> u64 {
        let (kind, last) = match self {
            Self::Ste(_) => (layout::STE, layout::LAST_LEVEL),
            Self::SteBranch(_) => (layout::STE, 0),
            Self::Cd(_) => (layout::CD, layout::LAST_LEVEL),
            Self::CdBranch(_) => (layout::CD, 0),
            Self::Stage1(_) => (layout::STAGE1, layout::LAST_LEVEL),
            Self::Stage1Branch(_) => (layout::STAGE1, 0),
            Self::Stage2(_) => (layout::STAGE2, layout::LAST_LEVEL),
            Self::Stage2Branch(_) => (layout::STAGE2, 0),
        };
        layout::VALID | put(layout::KIND, kind) | last
    }

    fn of_words(words: &[u64; ROW_WORDS]) -> Result<Self, FieldError> {
        let last = words[0] & layout::LAST_LEVEL != 0;
        Ok(match (get(layout::KIND, words[0]), last) {
            (layout::STE, true) => Self::Ste(Ste::of_words(words)?),
            (layout::STE, false) => Self::SteBranch(SteBranch::of_words(words)),
            (layout::CD, true) => Self::Cd(Cd::of_words(words)),
            (layout::CD, false) => Self::CdBranch(CdBranch { stream: Cd::of_words(words).stream }),
            (layout::STAGE1, true) => Self::Stage1(Stage1::of_words(words)?),
            (layout::STAGE1, false) => Self::Stage1Branch(Stage1Branch::of_words(words)?),
            (_, true) => Self::Stage2(Stage2::of_words(words)?),
            (_, false) => Self::Stage2Branch(Stage2Branch::of_words(words)),
        })
    }
}

impl Cd {
    /// Words 0 and 1, without the tag.
    fn words(&self) -> Result<[u64; 2], FieldError> {
        let substream = put(layout::SUBSTREAM, self.substream.into());
        demand(get(layout::SUBSTREAM, substream) == u64::from(self.substream), FieldError::Substream)?;
        Ok([put(layout::ASID, self.asid.into()), put(layout::STREAM, self.stream.into()) | substream])
    }

    fn of_words(words: &[u64; ROW_WORDS]) -> Self {
        Self {
            stream: get(layout::STREAM, words[1]) as u32,
            substream: get(layout::SUBSTREAM, words[1]) as u32,
            asid: get(layout::ASID, words[0]) as u16,
        }
    }
}
