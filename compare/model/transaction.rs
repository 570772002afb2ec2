//! One transaction through STE, CD and both stages (document 01, A transaction;
//! document 02, T-05).

use super::attributes::{cacheable, Attributes, HALVES};
use super::image;
use super::refusal::Refusal;
use super::row::{Kind, Row};
use super::words::{bit, part};

#[derive(Clone, Copy, Debug, PartialEq, Eq)]
pub struct Transaction {
    pub stream: u64,
    pub substream: u64,
    pub address: u64,
    pub write: bool,
    pub instruction: bool,
    pub privileged: bool,
    pub attributes: Attributes,
}

/// A transaction that came through.
#[derive(Clone, Copy, Debug, PartialEq, Eq)]
pub struct Passed {
    pub address: u64,
    pub attributes: Attributes,
    pub instruction: bool,
    pub privileged: bool,
}

#[derive(Clone, Copy, Debug, PartialEq, Eq)]
pub enum Outcome {
    Passed(Passed),
    Abort,
    MissSte,
    MissCd,
    MissStage1,
    MissStage2,
}

/// The row that answers: the lowest one of the kind that is last-level, has no mark
/// and fits.
fn lookup(kept: &[u64], kind: Kind, fits: impl Fn(&Row) -> bool) -> Option<Row> {
    let answers = |row: &Row| row.used() && row.last_level() && !row.marked();
    image::rows(kept).find(|row| row.kind() == kind && answers(row) && fits(row))
}

/// The STE row that decides for a stream.
pub fn stream_row(kept: &[u64], stream: u64) -> Option<Row> {
    lookup(kept, Kind::Ste, |row| row.stream() == stream)
}

pub fn translate(kept: &[u64], asked: &Transaction) -> Result<Outcome, Refusal> {
    image::accept(kept)?;
    if !asked.attributes.well_formed() {
        return Err(Refusal::Attributes);
    }
    Ok(walk(kept, asked).unwrap_or_else(|end| end))
}

/// The five steps; Err holds an end without an address.
fn walk(kept: &[u64], asked: &Transaction) -> Result<Outcome, Outcome> {
    let ste = stream_row(kept, asked.stream).ok_or(Outcome::MissSte)?;
    if ste.config() == 0 {
        return Err(Outcome::Abort);
    }
    let mut passed = overridden(&ste, asked);
    if matches!(ste.config(), 5 | 7) {
        let row = stage1_row(kept, &ste, asked)?;
        passed.attributes = row.attributes();
        passed.address = moved(&row, passed.address);
    }
    if matches!(ste.config(), 6 | 7) {
        let fits = |row: &Row| row.vmid() == ste.vmid() && row.covers(passed.address);
        let row = lookup(kept, Kind::Stage2, fits).ok_or(Outcome::MissStage2)?;
        passed.attributes = passed.attributes.combined(row.attributes());
        passed.address = moved(&row, passed.address);
    }
    passed.attributes = passed.attributes.settled();
    Ok(Outcome::Passed(passed))
}

/// The CD of stream and substream, and with its ASID the stage 1 row.
pub fn stage1_row(kept: &[u64], ste: &Row, asked: &Transaction) -> Result<Row, Outcome> {
    let named = |row: &Row| row.stream() == asked.stream && row.substream() == asked.substream;
    let cd = lookup(kept, Kind::Cd, named).ok_or(Outcome::MissCd)?;
    let fits = |row: &Row| {
        row.vmid() == ste.vmid()
            && (row.global() || row.asid() == cd.asid())
            && row.covers(asked.address)
    };
    lookup(kept, Kind::Stage1, fits).ok_or(Outcome::MissStage1)
}

/// The address at the same offset in a covering row's output.
fn moved(row: &Row, address: u64) -> u64 {
    row.output() + (address - row.input())
}

/// Step 2: what the STE row's payload makes of the incoming attributes.
fn overridden(ste: &Row, asked: &Transaction) -> Passed {
    let word = ste.0[0];
    let instruction = match part(word, 60, 59) {
        2 => false,
        3 => true,
        _ => asked.instruction,
    };
    let privileged = match part(word, 62, 61) {
        2 => false,
        3 => true,
        _ => asked.privileged,
    };
    Passed {
        address: asked.address,
        attributes: overridden_attributes(word, asked.attributes),
        instruction: instruction && !asked.write,
        privileged,
    }
}

fn overridden_attributes(word: u64, incoming: Attributes) -> Attributes {
    let mut result = incoming;
    if bit(word, 48) {
        result.memattr = part(word, 52, 49);
    }
    // SHCFG and SH share their codes, but for 1.
    if part(word, 54, 53) != 1 {
        result.sh = part(word, 54, 53);
    }
    for half in HALVES {
        if !cacheable(result.memattr, half) {
            continue;
        }
        if bit(word, 58) {
            // ALLOCCFG counts RA, WA, TR downwards, hints count them upwards.
            let hint = part(word, 57, 57) + 2 * part(word, 56, 56) + 4 * part(word, 55, 55);
            result.set_hint(half, hint);
        } else if !cacheable(incoming.memattr, half) {
            // Newly cacheable: RA and WA, not TR.
            result.set_hint(half, 0b011);
        }
    }
    result
}
