//! What became of commands, and why and where runs raised.

use super::Table;
use crate::generate::commands::{CODES, RANGED};
use crate::limits::LOG2SIZE;
use crate::model::control::Control;
use crate::model::reason::Reason;
use crate::model::run::Fate;

/// The place for all codes that aren't commands, after those that are.
const OTHER: usize = CODES.len();
const REASONS: [(Reason, &str); 4] = [
    (Reason::UnknownCode, "unknown"),
    (Reason::FeatureAbsent, "absent"),
    (Reason::ReservedBit, "Reserved"),
    (Reason::BadParameter, "bad"),
];
/// Where a run may raise: RD without and with its wrap bit, at either end of the
/// queue.
const PLACES: [&str; 4] = ["below", "wrapped", "first", "last"];
const SIZES: usize = LOG2SIZE as usize + 1;

#[derive(Default)]
pub struct Commands {
    consumed: [u64; OTHER + 1],
    removing: [u64; OTHER + 1],
    too_wide: [u64; OTHER + 1],
    illegal: [[u64; REASONS.len()]; OTHER + 1],
    raised: [[u64; PLACES.len()]; SIZES],
}

impl Commands {
    pub fn count(&mut self, code: u8, fate: Fate) {
        let place = CODES
            .iter()
            .position(|&known| known == u64::from(code))
            .unwrap_or(OTHER);
        if let Fate::Raised(raised) = fate {
            self.illegal[place][raised.reason.number() as usize - 1] += 1;
            return;
        }
        self.consumed[place] += 1;
        match fate {
            Fate::TooWide => self.too_wide[place] += 1,
            Fate::Removed(rows) if rows > 0 => self.removing[place] += 1,
            _ => (),
        }
    }

    /// A run that raised, and the control word that it left: RD is still that of
    /// the illegal command.
    pub fn count_raised(&mut self, control: Control) {
        let wrapped = control.rd >= control.slots();
        let places = [
            !wrapped,
            wrapped,
            control.slot() == 0,
            control.slot() == control.slots() - 1,
        ];
        for (count, met) in self.raised[control.log2size as usize]
            .iter_mut()
            .zip(places)
        {
            *count += u64::from(met);
        }
    }

    /// Prints a line for each code, then for each size of queue.
    pub(super) fn print(&self, table: &mut Table) {
        self.print_codes(table);
        self.print_raised(table);
    }

    fn print_codes(&self, table: &mut Table) {
        let heads = ["legal", "removing", "too wide"];
        print!("\n  {:<14}", "Command");
        heads.iter().for_each(|head| print!("{head:>9}"));
        REASONS.iter().for_each(|(_, head)| print!("{head:>9}"));
        println!();
        for place in 0..=OTHER {
            let code = CODES.get(place).copied().unwrap_or(0);
            let known = place < OTHER;
            let name = if known {
                format!("{code:02X}")
            } else {
                "other".into()
            };
            let removes = known && !matches!(code, 0x01 | 0x02 | 0x46);
            let widths = matches!(code, 0x10..=0x13 | 0x21 | 0x22 | 0x28 | 0x2A);
            print!("  {name:<14}{}", table.cell(self.consumed[place], known));
            print!("{}", table.cell(self.removing[place], removes));
            print!("{}", table.cell(self.too_wide[place], widths));
            for (&count, (reason, _)) in self.illegal[place].iter().zip(REASONS) {
                print!("{}", table.cell(count, possible(code, reason)));
            }
            println!();
        }
    }

    fn print_raised(&self, table: &mut Table) {
        print!("\n  {:<14}", "Raised, size");
        PLACES.iter().for_each(|place| print!("{place:>9}"));
        println!();
        for (log2size, counts) in self.raised.iter().enumerate() {
            print!("  {log2size:<14}");
            counts
                .iter()
                .for_each(|&count| print!("{}", table.cell(count, true)));
            println!();
        }
    }
}

/// Whether a command of the code, or of none that is known, can be illegal for a
/// reason. Every code has bits that are Reserved.
fn possible(code: u64, reason: Reason) -> bool {
    let known = CODES.contains(&code);
    match reason {
        Reason::UnknownCode => !known,
        Reason::FeatureAbsent => {
            matches!(code, 0x05 | 0x06 | 0x10..=0x13 | 0x20..=0x23 | 0x28 | 0x2A | 0x70 | 0x73)
        }
        Reason::ReservedBit => known,
        Reason::BadParameter => code == 0x46 || RANGED.contains(&code),
    }
}
