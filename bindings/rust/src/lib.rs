//! The C interface of Tahvenno, `include/tahvenno.h`, in Rust: the command queue, the cached rows and the translation
//! of an emulated Arm SMMUv3.
//!
//! A call is a function over slices, one for each call of the header. What it is given and what it tells are values
//! with names; [`Refusal`] is why it was not carried out. The header and `docs/BOX.md` say what a monitor does around
//! the calls: who may write to what, barriers, and what to do after a restart.
//!
//! | lent | length | at the start | looked at |
//! |---|---|---|---|
//! | the kept memory | [`kept_words`] | [`empty`] | [`Control`], [`rows`], [`Row`] |
//! | the second table | [`table_words`] | [`empty_table`] | [`regions`], [`Region`] |
//! | the queue | [`queue_bytes`] | anything | |
//! | the recorder | [`event_words`] | [`empty_recorder`] | [`EventIndex`] |
//!
//! ```
//! use tahvenno::*;
//! let mut kept = [0; kept_words(2)];
//! empty(&mut kept, 1, true)?;
//! let ste = Row::Ste(Ste { stream: 5, vmid: 0, config: Config::Bypass, overrides: Overrides::NONE });
//! fill(&mut kept, 0, &ste.words()?, FILL_STORES)?;
//! let access = Access {
//!     stream: 5,
//!     substream: 0,
//!     address: 0x1234,
//!     write: false,
//!     instruction: false,
//!     privileged: false,
//!     attributes: Attributes::of(MemAttr::WRITE_BACK),
//! };
//! assert!(matches!(translate(&kept, &access)?, Outcome::Address { address: 0x1234, .. }));
//! # Ok::<(), Box<dyn std::error::Error>>(())
//! ```
//!
//! No call panics while `libtahvenno.a` is of this crate's version.
#![no_std]
#![deny(unsafe_code)]
#![warn(missing_docs)]

#[macro_use]
mod macros;

mod attributes;
mod command;
mod control;
mod error;
mod features;
mod fill;
pub mod layout;
mod memory;
mod recorder;
mod refusal;
mod region;
mod ring;
mod row;
mod run;
mod stage;
mod ste;
mod translate;
#[allow(unsafe_code)]
mod unit;

// the example there is run with the others
#[cfg(doctest)]
#[doc = include_str!("../README.md")]
struct Readme;

pub use attributes::{Attributes, Cache, Device, Hints, MemAttr, Shareability};
pub use command::{write_batch, write_command, Command, Granule, Range, Signal, Target};
pub use control::{acknowledge, clear_pending, disable, doorbell, enable, state, Control, State};
pub use error::{FieldError, NoSuchNumber};
pub use features::Features;
pub use fill::{fill, table_fill, Fill, FillEnd, FILL_STORES, TABLE_FILL_STORES};
pub use memory::{
    empty, empty_recorder, empty_region, empty_row, empty_table, event_words, kept_words, queue_bytes, regions, rows,
    table_words,
};
pub use recorder::{event_acknowledge, event_read, event_write, EventEnd, EventIndex, EventWrite, Record};
pub use refusal::Refusal;
pub use region::{Region, RegionSize};
pub use row::{Cd, CdBranch, Row};
pub use run::{check_batch, run, Batch, Place, Reason, Run, RunEnd, Verdict};
pub use stage::{Regime, Stage1, Stage1Branch, Stage2, Stage2Branch};
pub use ste::{AllocCfg, Config, InstCfg, Overrides, PrivCfg, ShCfg, Ste, SteBranch};
pub use translate::{translate, Access, Miss, Outcome};
