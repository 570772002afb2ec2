//! What became of the pending bit (document 02, T-08).

use super::{Table, RUN_ENDS};
use crate::call::{Call, Reply, FIRST_EVENT, NAMES};
use crate::model::words::bit;

/// The bit was clear and stays so, is set, was set and stays so, is cleared.
const WAYS: [&str; 4] = ["clear", "set", "stays", "cleared"];

#[derive(Default)]
pub struct Pending {
    calls: [[u64; WAYS.len()]; FIRST_EVENT],
    runs: [[u64; WAYS.len()]; RUN_ENDS.len()],
}

impl Pending {
    /// A call that was carried out, with the control word before and after it.
    pub fn count(&mut self, call: &Call, reply: &Reply, (before, after): (u64, u64)) {
        let way = match (bit(before, 55), bit(after, 55)) {
            (false, false) => 0,
            (false, true) => 1,
            (true, true) => 2,
            (true, false) => 3,
        };
        self.calls[call.index()][way] += 1;
        if let Call::Run { .. } = call {
            self.runs[reply.answer[0] as usize][way] += 1;
        }
    }

    pub(super) fn print(&self, table: &mut Table) {
        print!("\n  {:<14}", "Bit 55");
        WAYS.iter().for_each(|way| print!("{way:>9}"));
        println!();
        let calls = NAMES.iter().zip(&self.calls).skip(1);
        for (name, ways) in RUN_ENDS.iter().zip(&self.runs).chain(calls) {
            print!("  {name:<14}");
            for (way, &count) in ways.iter().enumerate() {
                print!("{}", table.cell(count, possible(name, WAYS[way])));
            }
            println!();
        }
    }
}

/// Whether a call, or a run that ends so, can leave the bit that way. Off and Held
/// runs consume nothing.
fn possible(name: &str, way: &str) -> bool {
    match way {
        "set" => matches!(name, "Empty" | "Raised" | "Cut"),
        "cleared" => name == "clear_pending",
        _ => name != "clear_pending",
    }
}
