//! What was compared: a kind that never occurred has to be seen.

mod check;
mod commands;
mod doubles;
mod events;
mod hyp;
mod nights;
mod pending;
mod ranges;
mod regions;
mod upper;
mod writer;

use crate::call::{Call, Reply, EVENT_CALLS, FIRST_EVENT, NAMES};
use check::Check;
use commands::Commands;
use doubles::Doubles;
use events::Events;
use hyp::Hyp;
use nights::Nights;
use pending::Pending;
use ranges::Ranges;
use regions::Regions;
use upper::Upper;
use writer::Writer;

const RUN_ENDS: [&str; 5] = ["Off", "Held", "Empty", "Raised", "Cut"];
const FILL_ENDS: [&str; 2] = ["Filled", "Cut"];
const OUTCOMES: [&str; 6] = [
    "address",
    "Abort",
    "Miss STE",
    "Miss CD",
    "Miss stage 1",
    "Miss stage 2",
];
const CONFIGS: [usize; 5] = [0, 4, 5, 6, 7];
/// The refusals that there are.
const REFUSALS: [usize; 23] = [
    1, 2, 3, 4, 5, 6, 7, 8, 9, 10, 11, 12, 13, 14, 15, 16, 17, 18, 19, 20, 21, 22, 23,
];
const HIGHEST: usize = REFUSALS[REFUSALS.len() - 1];

#[derive(Default)]
pub struct Tally {
    pub compared: u64,
    calls: [u64; NAMES.len()],
    refusals: [[u64; HIGHEST + 1]; NAMES.len()],
    run_ends: [u64; 5],
    fill_ends: [u64; 2],
    table_fill_ends: [u64; 2],
    outcomes: [u64; 6],
    pub commands: Commands,
    pub pending: Pending,
    pub upper: Upper,
    pub doubles: Doubles,
    pub hyp: Hyp,
    pub ranges: Ranges,
    pub regions: Regions,
    pub events: Events,
    pub writer: Writer,
    pub check: Check,
    pub nights: Nights,
    configs: [u64; 8],
    config_hits: [u64; 8],
}

impl Tally {
    pub fn count(&mut self, call: &Call, reply: &Reply) {
        self.compared += 1;
        self.calls[call.index()] += 1;
        self.refusals[call.index()][reply.number as usize] += 1;
        let first = reply.answer[0] as usize;
        match call {
            _ if reply.number != 0 => (),
            Call::Run { .. } => self.run_ends[first] += 1,
            Call::Fill { .. } => self.fill_ends[first] += 1,
            Call::TableFill { .. } => self.table_fill_ends[first] += 1,
            Call::Translate(_) => self.outcomes[first] += 1,
            _ => (),
        }
    }

    /// A transaction whose STE row was found, and whether it came through.
    pub fn count_config(&mut self, config: u64, hit: bool) {
        self.configs[config as usize] += 1;
        self.config_hits[config as usize] += u64::from(hit);
    }

    /// Prints the table; returns how many kinds that should occur never did.
    pub fn print(&self) -> usize {
        let mut table = Table::default();
        self.print_calls(&mut table);
        for (title, names, counts) in [
            ("Ends of runs", &RUN_ENDS[..], &self.run_ends[..]),
            ("Ends of fills", &FILL_ENDS, &self.fill_ends),
            (
                "Ends of fills of the second table",
                &FILL_ENDS,
                &self.table_fill_ends,
            ),
            ("Outcomes of transactions", &OUTCOMES, &self.outcomes),
        ] {
            println!("\n{title}");
            for (name, &count) in names.iter().zip(counts) {
                println!("  {name:<14}{}", table.cell(count, true));
            }
        }
        self.print_configs(&mut table);
        self.commands.print(&mut table);
        self.pending.print(&mut table);
        self.upper.print(&mut table);
        self.doubles.print(&mut table);
        self.hyp.print(&mut table);
        self.ranges.print(&mut table);
        self.regions.print(&mut table);
        self.events.print(&mut table);
        self.writer.print(&mut table);
        self.check.print(&mut table);
        self.nights.print(&mut table);
        table.missing
    }

    fn print_calls(&self, table: &mut Table) {
        print!(
            "Calls compared: {}\n  {:<18}{:>9}",
            self.compared, "", "calls"
        );
        for number in REFUSALS {
            print!("{:>9}", format!("no {number}"));
        }
        println!();
        for (call, name) in NAMES.iter().enumerate() {
            print!("  {name:<18}{}", table.cell(self.calls[call], true));
            for number in REFUSALS {
                print!(
                    "{}",
                    table.cell(self.refusals[call][number], refusable(call, number))
                );
            }
            println!();
        }
    }

    fn print_configs(&self, table: &mut Table) {
        println!("\n  {:<14}{:>9}{:>9}", "Config", "found", "address");
        for config in CONFIGS {
            let found = table.cell(self.configs[config], true);
            let hits = table.cell(self.config_hits[config], config != 0);
            println!("  {config:<14}{found}{hits}");
        }
    }
}

/// Whether a call can give a refusal at all.
fn refusable(call: usize, number: usize) -> bool {
    match number {
        1..=3 => call < FIRST_EVENT,
        4 => matches!(NAMES[call], "run" | "write_batch"),
        5 => NAMES[call] == "doorbell",
        6 => NAMES[call] == "acknowledge",
        7..=9 => matches!(NAMES[call], "fill" | "table_fill"),
        11 => NAMES[call] == "fill",
        10 => NAMES[call] == "translate",
        12 => NAMES[call] == "clear_pending",
        13 | 14 => matches!(NAMES[call], "run" | "table_fill" | "check_batch"),
        17 => NAMES[call] == "event_read",
        18 => NAMES[call] == "event_acknowledge",
        19 => NAMES[call] == "write_command",
        20 | 21 => matches!(NAMES[call], "write_batch" | "write_command"),
        22 => NAMES[call] == "write_batch",
        23 => NAMES[call] == "check_batch",
        _ => EVENT_CALLS.contains(&call),
    }
}

#[derive(Default)]
struct Table {
    missing: usize,
}

impl Table {
    /// A count; one that should occur and never did stands out.
    fn cell(&mut self, count: u64, wanted: bool) -> String {
        match (count, wanted) {
            (0, true) => {
                self.missing += 1;
                format!("{:>9}", "NEVER")
            }
            (0, false) => format!("{:>9}", "-"),
            _ => format!("{count:>9}"),
        }
    }
}
