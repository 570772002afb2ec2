//! What became of the second table: of its rows by commands, of its fills, and where it
//! was refused (document 02, T-11).

mod forms;
mod scopes;

use super::Table;
use crate::call::{Call, Reply, CUT};
use crate::model::control::Control;
use forms::Forms;
use scopes::Scopes;

/// Runs that were cut within the rows of a command for the table, and right before the
/// control word; that were cut in a command for the kept memory beside a table in use;
/// that removed rows of both, with a cut and without.
const CUTS: [&str; 5] = ["within", "before RD", "other", "both, cut", "both"];

#[derive(Default)]
pub struct Regions {
    forms: Forms,
    scopes: Scopes,
    cuts: [u64; CUTS.len()],
}

/// The kept memory and the second table.
pub type Lent<'a> = (&'a [u64], &'a [u64]);

impl Regions {
    /// A call with what it was lent, before it and after.
    pub fn count(&mut self, before: Lent, call: &Call, reply: &Reply, after: Lent) {
        self.forms.count(before.1, call, reply);
        let Call::Run {
            queue, features, ..
        } = *call
        else {
            return;
        };
        if reply.number != 0 {
            return;
        }
        let control = Control::fields(before.0[0]);
        let next = |index: u64| {
            let start = 16 * (index % control.slots()) as usize;
            let word = |from: usize| u64::from_le_bytes(queue[from..from + 8].try_into().unwrap());
            (word(start), word(start + 8))
        };
        let [end, consumed, ..] = reply.answer;
        if consumed == 1 && end != CUT {
            let tables = (before.1, after.1);
            self.scopes.count(next(control.rd), features, tables);
        }
        let took = [before.0[1..] != after.0[1..], before.1 != after.1];
        let last = next(control.rd + consumed);
        self.count_cut(end == CUT, last.0 as u8, took, after.1);
    }

    fn count_cut(&mut self, cut: bool, code: u8, [kept, table]: [bool; 2], left: &[u64]) {
        let own = matches!(code, 0x70 | 0x73);
        let used = left.iter().step_by(2).any(|&word| word != 0);
        let ways = [
            cut && own && table && used,
            cut && code == 0x70 && table && !used,
            cut && !own && kept && used,
            cut && kept && table,
            !cut && kept && table,
        ];
        for (count, met) in self.cuts.iter_mut().zip(ways) {
            *count += u64::from(met);
        }
    }

    pub(super) fn print(&self, table: &mut Table) {
        self.scopes.print(table);
        self.forms.print(table);
        heads("Table, cuts", &CUTS);
        line(table, "run", self.cuts.map(|count| (count, true)));
    }
}

fn heads(title: &str, columns: &[&str]) {
    print!("\n  {title:<14}");
    columns.iter().for_each(|head| print!("{head:>11}"));
    println!();
}

/// Counts, each with whether it has to occur.
fn line(table: &mut Table, name: &str, counts: impl IntoIterator<Item = (u64, bool)>) {
    print!("  {name:<14}");
    for (count, wanted) in counts {
        print!("  {}", table.cell(count, wanted));
    }
    println!();
}
