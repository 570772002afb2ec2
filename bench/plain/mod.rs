//! The unit's run, fill, transaction and check of a batch in straightforward Rust: what the
//! compiled unit's times are held against.
//!
//! Written from the papers and the C interface, apart from the unit and from the model of
//! `compare/`. Words are decoded into structs and enums, a command once and a row whenever it
//! is looked at, and each command goes through the rows in a loop. Nothing is done for speed
//! that isn't the plain way to write it.

mod allowance;
mod attributes;
mod bits;
pub mod check;
mod command;
mod control;
mod double;
mod features;
pub mod fill;
mod form;
mod image;
pub mod refusal;
mod region;
mod remove;
mod row;
pub mod run;
mod scope;
mod span;
pub mod translate;
