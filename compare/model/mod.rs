//! Document 01 and what document 02 adds to it, once more, written from the
//! papers alone, on plain words and slices.
//!
//! One file for each part of a paper. Nothing here looks at the unit under
//! test, and nothing here is clever: a reader should be able to hold each
//! function beside the sentence that it cites.

pub mod attributes;
pub mod check;
pub mod command;
pub mod control;
pub mod control_calls;
pub mod doubles;
pub mod events;
pub mod fields;
pub mod fill;
pub mod image;
pub mod range;
pub mod reason;
pub mod refusal;
pub mod region;
pub mod row;
pub mod run;
pub mod scope;
pub mod state;
pub mod table_fill;
pub mod transaction;
pub mod words;
pub mod writer;
