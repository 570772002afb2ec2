//! A run, and the check of a shortened batch.

use core::fmt;

use crate::features::Features;
use crate::layout::{self, ROW_WORDS};
use crate::refusal::Refusal;
use crate::unit;

numbered! {
    /// Why a command is illegal: the first that applies.
    Reason {
        /// No command has this code.
        UnknownCode = layout::UNKNOWN_CODE, "no command has this code";
        /// The code needs a feature that is absent.
        FeatureAbsent = layout::FEATURE_ABSENT, "it needs a feature that is absent";
        /// A Reserved bit is set.
        ReservedBit = layout::RESERVED_BIT, "a Reserved bit is set";
        /// A field has a value that it may not have.
        BadParameter = layout::BAD_PARAMETER, "a field has a value that it may not have";
    }
}

/// How a run ended.
#[derive(Clone, Copy, Debug, PartialEq, Eq, Hash)]
pub enum RunEnd {
    /// The queue is disabled.
    Off,
    /// An error is active; nothing is done until it is acknowledged.
    Held,
    /// No command waits any more.
    Empty,
    /// The command in this slot is illegal: signal the error to the guest. Neither is kept, a run after this is Held.
    Raised {
        /// Why it is illegal.
        reason: Reason,
        /// The slot, counted from 0.
        slot: usize,
    },
    /// A store was due and none was left. Call again, with the same second table, queue and features.
    Cut,
}

impl fmt::Display for RunEnd {
    fn fmt(&self, f: &mut fmt::Formatter) -> fmt::Result {
        match self {
            Self::Off => f.write_str("the queue is disabled"),
            Self::Held => f.write_str("an error waits to be acknowledged"),
            Self::Empty => f.write_str("no command waits"),
            Self::Raised { reason, slot } => write!(f, "the command in slot {slot} is illegal: {reason}"),
            Self::Cut => f.write_str("cut before its next store"),
        }
    }
}

/// What a run did.
#[derive(Clone, Copy, Debug, PartialEq, Eq, Hash)]
pub struct Run {
    /// How it ended.
    pub end: RunEnd,
    /// Commands consumed.
    pub consumed: u64,
    /// Stores made.
    pub stores: u64,
    /// Rows removed from both tables.
    pub removed: u64,
    /// Consumed CMD_SYNCs that ask for an interrupt. The pending bit stands for them also where power cut a run.
    pub interrupts: u64,
}

/// Carries out the commands that wait, with at most `allowance` stores.
///
/// ```
/// use tahvenno::*;
/// let (mut kept, mut table, mut queue) = ([0; kept_words(1)], [0; table_words(1)], [0; queue_bytes(1)]);
/// empty(&mut kept, 1, true)?;
/// let commands = [Command::TlbiNsnhAll.words(), Command::Sync { signal: Signal::Interrupt }.words()];
/// write_batch(&mut kept, &mut queue, &commands, Features::NONE)?;
/// let run = run(&mut kept, &mut table, &queue, Features::NONE, layout::MAX_STORES)?;
/// assert_eq!((run.end, run.consumed, run.interrupts), (RunEnd::Empty, 2, 1));
/// # Ok::<(), Refusal>(())
/// ```
pub fn run(
    kept: &mut [u64],
    table: &mut [u64],
    queue: &[u8],
    features: Features,
    allowance: u64,
) -> Result<Run, Refusal> {
    let [end, consumed, stores, removed, interrupts, reason, slot, _] =
        unit::run(kept, table, queue, features.bits(), allowance)?;
    let end = match end {
        layout::OFF => RunEnd::Off,
        layout::HELD => RunEnd::Held,
        layout::EMPTY => RunEnd::Empty,
        layout::RAISED => RunEnd::Raised { reason: unit::known(reason), slot: slot as usize },
        layout::CUT => RunEnd::Cut,
        end => unit::unknown(end),
    };
    Ok(Run { end, consumed, stores, removed, interrupts })
}

numbered! {
    /// One of the two batches that are compared.
    Batch {
        /// The longer one.
        Original = 0, "the original batch";
        /// The one that is to stand for it.
        Proposed = 1, "the proposed batch";
    }
}

/// Where a row stands, counted from 0.
#[derive(Clone, Copy, Debug, PartialEq, Eq, Hash)]
pub enum Place {
    /// In the kept memory.
    Kept(usize),
    /// In the second table.
    Table(usize),
}

impl fmt::Display for Place {
    fn fmt(&self, f: &mut fmt::Formatter) -> fmt::Result {
        match self {
            Self::Kept(row) => write!(f, "row {row} of the kept memory"),
            Self::Table(row) => write!(f, "row {row} of the second table"),
        }
    }
}

/// Whether one batch may stand for another.
#[derive(Clone, Copy, Debug, PartialEq, Eq, Hash)]
pub enum Verdict {
    /// Both leave the same rows.
    Same,
    /// A command is no legal invalidation; the first such, the original batch searched first.
    Unfit {
        /// The batch that it is in.
        batch: Batch,
        /// The command, counted from 0.
        command: usize,
    },
    /// One batch leaves a row that the other removes; the lowest such, the second table's behind the others.
    Differ(Place),
}

impl fmt::Display for Verdict {
    fn fmt(&self, f: &mut fmt::Formatter) -> fmt::Result {
        match self {
            Self::Same => f.write_str("both batches leave the same rows"),
            Self::Unfit { batch, command } => write!(f, "command {command} of {batch} is no legal invalidation"),
            Self::Differ(place) => write!(f, "{place} would differ"),
        }
    }
}

/// Compares what two batches of invalidations, 16 bytes a command, would leave of these rows. Nothing is stored.
///
/// ```
/// use tahvenno::*;
/// let (mut kept, table) = ([0; kept_words(1)], [0; table_words(1)]);
/// empty(&mut kept, 0, true)?;
/// let mut batch = [0; layout::SLOT_BYTES];
/// write_command(&mut batch, &Command::TlbiNsnhAll.words(), Features::NONE)?;
/// assert_eq!(check_batch(&kept, &table, &batch, &[], Features::NONE)?, Verdict::Same);
/// # Ok::<(), Refusal>(())
/// ```
pub fn check_batch(
    kept: &[u64],
    table: &[u64],
    original: &[u8],
    proposed: &[u8],
    features: Features,
) -> Result<Verdict, Refusal> {
    let [verdict, first, second, ..] = unit::check_batch(kept, table, [original, proposed], features.bits())?;
    let rows = (kept.len() - 1) / ROW_WORDS;
    Ok(match verdict {
        layout::SAME => Verdict::Same,
        layout::UNFIT => Verdict::Unfit { batch: unit::known(first), command: second as usize },
        layout::DIFFER if (first as usize) < rows => Verdict::Differ(Place::Kept(first as usize)),
        layout::DIFFER => Verdict::Differ(Place::Table(first as usize - rows)),
        verdict => unit::unknown(verdict),
    })
}
