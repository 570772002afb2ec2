//! Why a command is illegal (document 02, T-09).

/// The reasons in the order in which they are tried: the first that applies is
/// told.
#[derive(Clone, Copy, Debug, PartialEq, Eq)]
pub enum Reason {
    UnknownCode,
    FeatureAbsent,
    ReservedBit,
    BadParameter,
}

impl Reason {
    pub fn number(self) -> u64 {
        match self {
            Reason::UnknownCode => 1,
            Reason::FeatureAbsent => 2,
            Reason::ReservedBit => 3,
            Reason::BadParameter => 4,
        }
    }
}

/// What comes with Raised: why, and which slot.
#[derive(Clone, Copy, Debug, PartialEq, Eq)]
pub struct Raised {
    pub reason: Reason,
    pub slot: u64,
}
