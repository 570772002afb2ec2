//! When the unit says no.

use core::fmt;

use crate::layout::{ANSWER_WORDS, MAX_EVENT_N, MAX_REGIONS, MAX_ROWS, SLOT_BYTES};

/// Declares the refusals by their numbers, with the payload that the first word of the answer is.
macro_rules! refusals {
    ($($(#[$doc:meta])* $number:literal $variant:ident $({ $payload:ident })?, $sentence:literal;)*) => {
        /// Why a call was not carried out. Not one word of what was lent to it has changed then, nor a byte of a queue.
        #[derive(Clone, Copy, Debug, PartialEq, Eq, Hash)]
        pub enum Refusal {
            $($(#[$doc])* $variant $({
                /// Counted from 0.
                $payload: usize,
            })?,)*
        }

        impl Refusal {
            /// The refusal's number, as the header has it.
            ///
            /// ```
            /// assert_eq!(tahvenno::state(&[]).map_err(|refusal| refusal.number()), Err(1));
            /// ```
            pub const fn number(&self) -> u64 {
                match self {
                    $(Self::$variant $({ $payload: _ })? => $number,)*
                }
            }

            /// The refusal of a number and its answer; `None` for a number that has none.
            pub(crate) fn of(number: u64, answer: [u64; ANSWER_WORDS]) -> Option<Self> {
                Some(match number {
                    $($number => Self::$variant $({ $payload: answer[0] as usize })?,)*
                    _ => return None,
                })
            }
        }

        impl fmt::Display for Refusal {
            fn fmt(&self, f: &mut fmt::Formatter) -> fmt::Result {
                match self {
                    $(Self::$variant $({ $payload })? => write!(f, $sentence),)*
                }
            }
        }
    };
}

refusals! {
    /// The kept memory has no length that one can have.
    1 KeptLength, "the kept memory is not one control word and 1 to {MAX_ROWS} rows";
    /// The control word is ill formed.
    2 ControlWord, "the control word is ill formed";
    /// A row of the kept memory is ill formed; this is the lowest.
    3 Row { row }, "row {row} of the kept memory is ill formed";
    /// The queue is not as long as the control word says.
    4 QueueLength, "the queue has not the length that the control word gives it";
    /// No index that the guest may ring with.
    5 WriteIndex, "WR is no index of the queue, or more or fewer commands would wait than may";
    /// Nothing to acknowledge.
    6 NoError, "no error is active";
    /// No such row to fill.
    7 NoSuchRow, "there is no such row";
    /// The row to fill is in use.
    8 RowInUse, "the row is in use";
    /// The words to fill with are ill formed or empty.
    9 RowWords, "the words make no row";
    /// The attributes of the access are ill formed: a hint of a half that is not cached.
    10 Attributes, "the attributes do not go together";
    /// The new row and one that is there could answer the same access.
    11 Double, "another row could answer the same access";
    /// Nothing to clear.
    12 NotPending, "no interrupt is pending";
    /// The second table has no length that one can have.
    13 TableLength, "the second table has not 1 to {MAX_REGIONS} rows";
    /// A row of the second table is ill formed; this is the lowest.
    14 TableRow { row }, "row {row} of the second table is ill formed";
    /// The recorder has no length that one can have.
    15 EventsLength, "the recorder is not an index word and 2^n slots, n 0 to {MAX_EVENT_N}";
    /// The recorder's index word is ill formed, or of another length.
    16 IndexWord, "the index word of the recorder is ill formed, or of another length";
    /// Nothing to read.
    17 NoRecord, "no record waits";
    /// Nothing to acknowledge.
    18 NoOverflow, "no overflow is outstanding";
    /// The slot is not one.
    19 SlotLength, "a slot has {SLOT_BYTES} bytes";
    /// A command needs a feature that is absent; of a batch this is the first bad one.
    20 FeatureAbsent { command }, "command {command} needs a feature that is absent";
    /// A command is illegal or has a field that is too wide; of a batch this is the first bad one.
    21 Fields { command }, "command {command} has a field that it may not have";
    /// More commands than free slots.
    22 NoRoom, "the queue has too few free slots";
    /// A batch is not whole commands.
    23 BatchLength, "a batch is not whole commands";
}

impl core::error::Error for Refusal {}
