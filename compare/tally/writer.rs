//! What became of commands and batches that were to be written (document 02, T-10).

mod batches;
mod commands;

use super::Table;
use crate::call::{Call, Reply};
use batches::Batches;
use commands::Commands;

/// Slots that are refused: none, shorter, a byte short, a byte more, longer; with a
/// command that would be refused, too.
const LENGTHS: [&str; 6] = ["none", "short", "15", "17", "long", "bad, too"];

/// Batches that a run consumed: empty ones, others, and those over the end of the ring.
const CONSUMED: [&str; 3] = ["empty", "some", "wrapped"];

#[derive(Default)]
pub struct Writer {
    commands: Commands,
    batches: Batches,
    lengths: [u64; LENGTHS.len()],
    consumed: [u64; CONSUMED.len()],
}

impl Writer {
    /// A call with the kept memory before it, and the length of what it was to write.
    pub fn count(&mut self, before: &[u64], call: &Call, reply: &Reply, length: usize) {
        match *call {
            Call::WriteCommand { fields, features } if reply.number == 19 => {
                let bad = commands::due(fields, features) != 0;
                let ways = [
                    length == 0,
                    (1..15).contains(&length),
                    length == 15,
                    length == 17,
                    length > 17,
                    bad,
                ];
                add(&mut self.lengths, ways);
            }
            Call::WriteCommand { fields, features } => {
                self.commands.count(fields, features, reply.number, false);
            }
            Call::WriteBatch { commands, features } => {
                let whole = commands.chunks_exact(16);
                let reached = match reply.number {
                    20 | 21 => reply.answer[0] as usize + 1,
                    0 | 22 => usize::MAX,
                    _ => 0,
                };
                for (number, words) in whole.enumerate().take(reached) {
                    let fields = words.try_into().expect("sixteen words");
                    let told = if number + 1 == reached {
                        reply.number
                    } else {
                        0
                    };
                    self.commands.count(fields, features, told, true);
                }
                self.batches.count(before, (commands, features), reply);
            }
            _ => (),
        }
    }

    /// A batch of so many commands was consumed by a run, all of it.
    pub fn count_consumed(&mut self, count: u64, wrapped: bool) {
        add(&mut self.consumed, [count == 0, count > 0, wrapped]);
    }

    pub(super) fn print(&self, table: &mut Table) {
        self.commands.print(table);
        heads("Slots, no 19", &LENGTHS);
        line(table, "command", self.lengths.map(|count| (count, true)));
        self.batches.print(table);
        heads("Consumed", &CONSUMED);
        line(table, "batch", self.consumed.map(|count| (count, true)));
    }
}

fn add<const N: usize>(counts: &mut [u64; N], met: [bool; N]) {
    for (count, met) in counts.iter_mut().zip(met) {
        *count += u64::from(met);
    }
}

fn heads(title: &str, columns: &[&str]) {
    print!("\n  {title:<14}");
    columns.iter().for_each(|head| print!("{head:>10}"));
    println!();
}

/// Counts, each with whether it has to occur.
fn line(table: &mut Table, name: &str, counts: impl IntoIterator<Item = (u64, bool)>) {
    print!("  {name:<14}");
    for (count, wanted) in counts {
        print!(" {}", table.cell(count, wanted));
    }
    println!();
}
