//! The answer to a transaction.

use super::attributes::{Attributes, HALVES, ISH, NSH, OSH};
use super::bits::{bit, field};
use super::image;
use super::refusal::Refusal;
use super::row::{self, Kind, Mark, Row};

/// Hints of a half that an STE makes cacheable: RA and WA.
const DEFAULT_HINTS: u8 = 3;

#[derive(Clone, Copy)]
pub struct Transaction {
    pub stream: u32,
    pub substream: u32,
    pub address: u64,
    pub write: bool,
    pub instruction: bool,
    pub privileged: bool,
    pub attributes: Attributes,
}

impl Transaction {
    /// None if an attribute is too wide, or ill formed.
    pub fn new(
        (stream, substream): (u32, u32),
        address: u64,
        how: u64,
        [memattr, sh, hints]: [u64; 3],
    ) -> Option<Transaction> {
        let attributes = Attributes {
            memattr: memattr.try_into().ok()?,
            sh: sh.try_into().ok()?,
            hints: hints.try_into().ok()?,
        };
        attributes.well_formed().then_some(Transaction {
            stream,
            substream,
            address,
            write: bit(how, 0),
            instruction: bit(how, 1),
            privileged: bit(how, 2),
            attributes,
        })
    }
}

pub enum Outcome {
    Address(Transaction),
    Abort,
    MissSte,
    MissCd,
    MissStage1,
    MissStage2,
}

pub fn translate(kept: &[u64], asked: Option<Transaction>) -> Result<Outcome, Refusal> {
    image::check(kept)?;
    let asked = asked.ok_or(Refusal::BadAttributes)?;
    let table = Table { rows: &kept[1..] };
    Ok(match table.answer(asked) {
        Ok(outcome) | Err(outcome) => outcome,
    })
}

struct Table<'a> {
    rows: &'a [u64],
}

impl Table<'_> {
    /// The lowest last-level row of a kind that fits. The hypervisor's rows answer nobody.
    fn find(&self, kind: Kind, fits: impl Fn(&Row) -> bool) -> Option<Row> {
        let mut rows = self.rows.chunks_exact(row::WORDS).filter_map(Row::decode);
        rows.find(|row| row.kind == kind && row.last_level && row.mark == Mark::Guest && fits(row))
    }

    /// An error is an outcome, too: there is no address.
    fn answer(&self, mut asked: Transaction) -> Result<Outcome, Outcome> {
        let ste = self.find(Kind::Ste, |row| row.stream == asked.stream);
        let ste = ste.ok_or(Outcome::MissSte)?;
        if ste.config == 0 {
            return Ok(Outcome::Abort);
        }
        override_by(&ste, &mut asked);
        if matches!(ste.config, 5 | 7) {
            let row = self.stage1(&ste, &asked)?;
            asked.attributes = Attributes::of_row(&row);
            asked.address = row.translate(asked.address);
        }
        if matches!(ste.config, 6 | 7) {
            let row = self.stage2(&ste, &asked)?;
            asked.attributes = asked.attributes.combine(Attributes::of_row(&row));
            asked.address = row.translate(asked.address);
        }
        asked.attributes = asked.attributes.consistent();
        Ok(Outcome::Address(asked))
    }

    fn stage1(&self, ste: &Row, asked: &Transaction) -> Result<Row, Outcome> {
        let cd = self.find(Kind::Cd, |row| {
            row.stream == asked.stream && row.substream == asked.substream
        });
        let cd = cd.ok_or(Outcome::MissCd)?;
        let row = self.find(Kind::Stage1, |row| {
            row.vmid == ste.vmid
                && (row.global || row.asid == cd.asid)
                && row.addresses().holds(asked.address)
        });
        row.ok_or(Outcome::MissStage1)
    }

    fn stage2(&self, ste: &Row, asked: &Transaction) -> Result<Row, Outcome> {
        let row = self.find(Kind::Stage2, |row| {
            row.vmid == ste.vmid && row.addresses().holds(asked.address)
        });
        row.ok_or(Outcome::MissStage2)
    }
}

/// What the STE's payload makes of the transaction.
fn override_by(ste: &Row, asked: &mut Transaction) {
    let payload = u64::from(ste.payload);
    if bit(payload, 0) {
        override_type(field(payload, 4, 1) as u8, &mut asked.attributes);
    }
    asked.attributes.sh = match field(payload, 6, 5) {
        0 => NSH,
        1 => asked.attributes.sh,
        2 => OSH,
        _ => ISH,
    };
    override_hints(field(payload, 10, 7) as u8, &mut asked.attributes);
    asked.instruction = match field(payload, 12, 11) {
        2 => false,
        3 => true,
        _ => asked.instruction,
    } && !asked.write;
    asked.privileged = match field(payload, 14, 13) {
        2 => false,
        3 => true,
        _ => asked.privileged,
    };
}

/// A half that was cacheable before keeps its hints.
fn override_type(memattr: u8, attributes: &mut Attributes) {
    for half in HALVES {
        if half.is_cacheable(memattr) && !half.is_cacheable(attributes.memattr) {
            attributes.set_hints(half, DEFAULT_HINTS);
        }
    }
    attributes.memattr = memattr;
}

/// ALLOCCFG has its RA highest, hints have it lowest.
fn override_hints(alloccfg: u8, attributes: &mut Attributes) {
    if alloccfg & 8 == 0 {
        return;
    }
    let hints = (alloccfg >> 2 & 1) | (alloccfg & 2) | (alloccfg & 1) << 2;
    for half in HALVES {
        if half.is_cacheable(attributes.memattr) {
            attributes.set_hints(half, hints);
        }
    }
}
