//! A run over the commands that wait.

use super::allowance::{Allowance, Cut};
use super::command::{self, Command, Reason};
use super::control::Control;
use super::features::Features;
use super::image;
use super::refusal::Refusal;
use super::remove::remove;

pub enum End {
    Off,
    Held,
    Empty,
    Raised { reason: Reason, slot: u64 },
    Cut,
}

pub struct Report {
    pub end: End,
    pub consumed: u64,
    pub stores: u64,
    pub removed: u64,
    pub interrupts: u64,
}

pub fn run(
    kept: &mut [u64],
    table: &mut [u64],
    queue: &[u8],
    features: u64,
    allowance: u64,
) -> Result<Report, Refusal> {
    let control = image::check(kept)?;
    image::check_table(table)?;
    if queue.len() as u64 != command::BYTES as u64 * control.slots() {
        return Err(Refusal::QueueLength);
    }
    let mut run = Run {
        kept,
        table,
        control,
        allowance: Allowance::new(allowance),
        consumed: 0,
        interrupts: 0,
    };
    let end = run.go(queue, features.into()).unwrap_or(End::Cut);
    Ok(run.report(end))
}

struct Run<'a> {
    kept: &'a mut [u64],
    table: &'a mut [u64],
    /// What the first word of the kept memory says.
    control: Control,
    allowance: Allowance,
    consumed: u64,
    interrupts: u64,
}

impl Run<'_> {
    fn go(&mut self, queue: &[u8], features: Features) -> Result<End, Cut> {
        loop {
            if !self.control.enabled {
                return Ok(End::Off);
            }
            if self.control.active() {
                return Ok(End::Held);
            }
            if self.control.rd == self.control.wr {
                return Ok(End::Empty);
            }
            let slot = self.control.slot();
            let bytes = &queue[command::BYTES * slot as usize..];
            match command::decode(bytes, features) {
                Ok(command) => self.carry_out(&command)?,
                Err(reason) => {
                    self.store_control(self.control.raised())?;
                    return Ok(End::Raised { reason, slot });
                }
            }
        }
    }

    /// RD moves behind the rows, so that a cut leaves the command waiting.
    fn carry_out(&mut self, command: &Command) -> Result<(), Cut> {
        let rows = &mut self.kept[1..];
        remove(command, rows, self.table, &mut self.allowance)?;
        let interrupt = matches!(command, Command::Sync { interrupt: true });
        self.store_control(self.control.advanced(interrupt))?;
        self.consumed += 1;
        self.interrupts += u64::from(interrupt);
        Ok(())
    }

    fn store_control(&mut self, control: Control) -> Result<(), Cut> {
        self.allowance.store(&mut self.kept[0], control.encode())?;
        self.control = control;
        Ok(())
    }

    fn report(&self, end: End) -> Report {
        let raised = u64::from(matches!(end, End::Raised { .. }));
        Report {
            end,
            consumed: self.consumed,
            stores: self.allowance.made,
            removed: self.allowance.made - self.consumed - raised,
            interrupts: self.interrupts,
        }
    }
}
