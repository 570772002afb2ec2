//! Why words or a value are none that the unit takes.

use core::fmt;

/// A number that stands for none of the values of its type.
///
/// ```
/// use tahvenno::{NoSuchNumber, Shareability};
/// assert_eq!(Shareability::try_from(1), Err(NoSuchNumber(1)));
/// ```
#[derive(Clone, Copy, Debug, PartialEq, Eq, Hash)]
pub struct NoSuchNumber(pub u64);

impl fmt::Display for NoSuchNumber {
    fn fmt(&self, f: &mut fmt::Formatter) -> fmt::Result {
        write!(f, "{} stands for nothing here", self.0)
    }
}

impl core::error::Error for NoSuchNumber {}

/// Declares the enum and its sentences.
macro_rules! fields {
    ($($(#[$doc:meta])* $variant:ident, $sentence:literal;)*) => {
        /// The first part of a row, a region, a control word or an index word that is not as it has to be. Those that
        /// a type rules out occur only where words are taken apart.
        #[derive(Clone, Copy, Debug, PartialEq, Eq, Hash)]
        pub enum FieldError {
            $($(#[$doc])* $variant,)*
        }

        impl FieldError {
            /// Every one of them.
            pub const ALL: &'static [Self] = &[$(Self::$variant),*];
        }

        impl fmt::Display for FieldError {
            fn fmt(&self, f: &mut fmt::Formatter) -> fmt::Result {
                f.write_str(match self {
                    $(Self::$variant => $sentence,)*
                })
            }
        }
    };
}

fields! {
    /// Word 0 is not 0, but the row is not valid either.
    Valid, "word 0 is not 0 and not valid";
    /// A bit is set that has no name in such a word.
    Unnamed, "a bit is set that has no meaning there";
    /// Both marks at once.
    Marks, "a row has one mark at most";
    /// Config 1, 2 or 3.
    Config, "no such Config";
    /// MemAttr 4, 8 or 12.
    MemAttr, "no such MemAttr";
    /// SH 1.
    Sh, "no such shareability";
    /// A hint of a Device type or of a half that is not cached.
    Hints, "a half that is not cached has no hints";
    /// Not 12 to 48, or of a block of streams not 6, 8 or 10.
    Span, "no span that such a row may have";
    /// The first stream of a block is no multiple of its size.
    Stream, "a block of streams begins at a multiple of its size";
    /// 2^20 or more.
    Substream, "a SubstreamID has 20 bits";
    /// No multiple of the span, or outside the addresses of its stage.
    Input, "the input address does not suit the span, or is too high";
    /// No multiple of the span, or 2^52 or more.
    Output, "the output address does not suit the span, or is too high";
    /// None of the ten sizes.
    Size, "no such size of a region";
    /// No multiple of the size, or 2^52 or more.
    Base, "the base does not suit the size, or is too high";
    /// LOG2SIZE above the largest.
    Log2size, "LOG2SIZE is too large";
    /// An n above the largest.
    N, "n is too large";
    /// RD has more bits than the indexes of this ring.
    Rd, "RD is no index of this ring";
    /// WR has more bits than the indexes of this ring, or is further from RD than there are slots.
    Wr, "WR is no index of this ring, or too far from RD";
    /// ERR above 1, or 0 while an error is active.
    Err, "ERR is no error code, or none while one is active";
}

impl core::error::Error for FieldError {}

/// An error unless something holds.
pub(crate) fn demand(holds: bool, wrong: FieldError) -> Result<(), FieldError> {
    if holds {
        Ok(())
    } else {
        Err(wrong)
    }
}
