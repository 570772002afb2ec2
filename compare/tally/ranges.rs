//! What became of commands with ranges, and of the rows around them (document 02,
//! T-07).

mod scopes;
mod verdicts;

use super::Table;
use crate::call::{Call, Reply, CUT, RAISED};
use crate::generate::commands::RANGED;
use crate::model::command::Features;
use crate::model::control::Control;
use crate::model::range::Fields;
use scopes::Scopes;
use verdicts::Verdicts;

#[derive(Default)]
pub struct Ranges {
    verdicts: Verdicts,
    scopes: Scopes,
}

/// A command by address that was alone in its run.
struct Alone {
    low: u64,
    high: u64,
    fields: Fields,
    features: Features,
    /// 0 if it was carried out.
    reason: u64,
}

impl Ranges {
    /// A call with the memory before it and after.
    pub fn count(&mut self, before: &[u64], call: &Call, reply: &Reply, after: &[u64]) {
        if reply.number != 0 {
            return;
        }
        if let Some(alone) = Alone::of(before, call, reply) {
            self.verdicts.count(&alone);
            self.scopes.count(&alone, before, after);
        }
    }

    pub(super) fn print(&self, table: &mut Table) {
        self.verdicts.print(table);
        self.scopes.print(table);
    }
}

impl Alone {
    fn of(before: &[u64], call: &Call, reply: &Reply) -> Option<Alone> {
        let (queue, features) = match *call {
            Call::Run {
                queue, features, ..
            } => (queue, features),
            _ => return None,
        };
        let [end, consumed, _, _, _, reason, ..] = reply.answer;
        let raised = end == RAISED && consumed == 0;
        if !raised && (end == CUT || end == RAISED || consumed != 1) {
            return None;
        }
        let slot = 16 * Control::fields(before[0]).slot() as usize;
        let word = |from: usize| u64::from_le_bytes(queue[from..from + 8].try_into().unwrap());
        let (low, high) = (word(slot), word(slot + 8));
        RANGED.contains(&(low & 0xFF)).then(|| Alone {
            low,
            high,
            fields: Fields::of(low, high),
            features: Features::from_bits(features),
            reason,
        })
    }
}

fn heads<T>(title: &str, columns: &[(&str, T)]) {
    print!("\n  {title:<14}");
    columns.iter().for_each(|(head, _)| print!("{head:>11}"));
    println!();
}
