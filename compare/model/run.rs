//! One run over the queue (document 01, One run; document 02, T-08, T-09 and T-11).

use super::command::{decode, Effect, Features};
use super::control::Control;
use super::image;
use super::reason::{Raised, Reason};
use super::refusal::Refusal;
use super::region::{self, Region, Regions};
use super::row::Row;
use super::scope::Scope;

#[derive(Clone, Copy, Debug, PartialEq, Eq)]
pub enum End {
    Off,
    Held,
    Empty,
    Raised,
    Cut,
}

/// How a run ended, what it carries if it raised, and its four counts.
#[derive(Clone, Copy, Debug, PartialEq, Eq)]
pub struct Report {
    pub end: End,
    pub raised: Option<Raised>,
    pub consumed: u64,
    pub stores: u64,
    pub removed: u64,
    pub syncs: u64,
}

/// What became of one command, for whoever watches a run.
#[derive(Clone, Copy, Debug, PartialEq, Eq)]
pub enum Fate {
    /// Consumed, after this call removed so many rows for it.
    Removed(u64),
    TooWide,
    Raised(Raised),
}

/// The kept memory and the second table, together with the stores that may still be
/// made in them.
struct Writer<'a> {
    kept: &'a mut [u64],
    table: &'a mut [u64],
    left: u64,
    report: Report,
}

impl Writer<'_> {
    /// A store is due: the end of the run if none is left.
    fn spend(&mut self) -> Result<(), End> {
        self.left = self.left.checked_sub(1).ok_or(End::Cut)?;
        self.report.stores += 1;
        Ok(())
    }

    /// One store to the kept memory.
    fn store(&mut self, place: usize, word: u64) -> Result<(), End> {
        self.spend()?;
        self.kept[place] = word;
        Ok(())
    }

    fn row(&self, place: usize) -> Row {
        Row([
            self.kept[place],
            self.kept[place + 1],
            self.kept[place + 2],
            self.kept[place + 3],
        ])
    }

    /// Carries out a legal command: the rows in scope of either table, lowest first,
    /// then RD, and in the same store the pending bit if it asks for an interrupt.
    fn consume(&mut self, mut control: Control, effect: Effect) -> Result<Fate, End> {
        let before = self.report.removed;
        match effect {
            Effect::Remove(scope) => self.remove(scope)?,
            Effect::RemoveRegions(scope) => self.remove_regions(scope)?,
            Effect::Nothing | Effect::TooWide | Effect::Signal => (),
        }
        control.rd = (control.rd + 1) % control.ring();
        control.pending |= effect == Effect::Signal;
        self.store(0, control.pack())?;
        self.report.consumed += 1;
        self.report.syncs += u64::from(effect == Effect::Signal);
        match effect {
            Effect::TooWide => Ok(Fate::TooWide),
            _ => Ok(Fate::Removed(self.report.removed - before)),
        }
    }

    fn remove(&mut self, scope: Scope) -> Result<(), End> {
        for place in (1..self.kept.len()).step_by(4) {
            if scope.takes(&self.row(place)) {
                self.store(place, 0)?;
                self.report.removed += 1;
            }
        }
        Ok(())
    }

    fn remove_regions(&mut self, scope: Regions) -> Result<(), End> {
        for place in (0..self.table.len()).step_by(2) {
            if scope.takes(&Region([self.table[place], self.table[place + 1]])) {
                self.spend()?;
                self.table[place] = 0;
                self.report.removed += 1;
            }
        }
        Ok(())
    }

    /// Stops at an illegal command, which stays at RD.
    fn raise(&mut self, mut control: Control, reason: Reason) -> Result<Fate, End> {
        control.err = 1;
        control.gerror = !control.gerror;
        self.store(0, control.pack())?;
        let slot = control.slot();
        let raised = Raised { reason, slot };
        self.report.raised = Some(raised);
        Ok(Fate::Raised(raised))
    }
}

/// A run with at most `allowance` stores. `watch` is told each command's code
/// and fate; a caller who only wants the report passes `|_, _| ()`.
pub fn run(
    kept: &mut [u64],
    table: &mut [u64],
    queue: &[u8],
    features: Features,
    allowance: u64,
    mut watch: impl FnMut(u8, Fate),
) -> Result<Report, Refusal> {
    let control = image::accept(kept)?;
    region::accept(table)?;
    if queue.len() as u64 != 16 * control.slots() {
        return Err(Refusal::QueueLength);
    }
    let report = Report {
        end: End::Empty,
        raised: None,
        consumed: 0,
        stores: 0,
        removed: 0,
        syncs: 0,
    };
    let mut writer = Writer {
        kept,
        table,
        left: allowance,
        report,
    };
    loop {
        if let Err(end) = command(&mut writer, queue, features, &mut watch) {
            return Ok(Report {
                end,
                ..writer.report
            });
        }
    }
}

/// Once through the paper's order: Ok if a command was consumed, else the end.
fn command(
    writer: &mut Writer,
    queue: &[u8],
    features: Features,
    watch: &mut impl FnMut(u8, Fate),
) -> Result<(), End> {
    let control = Control::fields(writer.kept[0]);
    if !control.enabled {
        return Err(End::Off);
    }
    if control.active() {
        return Err(End::Held);
    }
    if control.rd == control.wr {
        return Err(End::Empty);
    }
    let (low, high) = fetch(queue, control.slot());
    let fate = match decode(low, high, features) {
        Ok(effect) => writer.consume(control, effect)?,
        Err(reason) => writer.raise(control, reason)?,
    };
    watch(low as u8, fate);
    match fate {
        Fate::Raised(_) => Err(End::Raised),
        _ => Ok(()),
    }
}

/// Low and high word of a slot; the guest's bytes are little-endian.
fn fetch(queue: &[u8], slot: u64) -> (u64, u64) {
    let start = 16 * slot as usize;
    let word = |from: usize| {
        queue[from..from + 8]
            .iter()
            .rev()
            .fold(0, |word, &byte| word << 8 | u64::from(byte))
    };
    (word(start), word(start + 8))
}
