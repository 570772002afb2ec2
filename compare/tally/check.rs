//! What checks of batches were asked and said (document 02, T-12).

mod commands;
mod pairs;
mod rows;

use super::Table;
use crate::call::{Call, Reply};
use crate::limits::{REGIONS, ROWS, SLOTS};
use crate::model::control::Control;
use commands::Commands;
use pairs::Pairs;
use rows::Rows;

/// The control word of the image: its queue off, held by an error, with an error that is
/// acknowledged, with an interrupt pending, empty, full, the smallest and the largest.
const STATES: [&str; 8] = [
    "off", "held", "acked", "pending", "empty", "full", "smallest", "largest",
];
const SAYS: [&str; 3] = ["yes", "unqualified", "differs"];
/// The rows of either table; the commands of either batch: as many as the largest queue
/// has slots, more, and more than 16 bits count.
const SIZES: [&str; 10] = [
    "1 row", "1,000", "1 region", "128", "orig. 1", "4,096", "65,537", "prop. 1", "4,096", "65,537",
];
/// Bytes over in the original, in the proposal, in both; together a whole command; less
/// than a command; with a command that doesn't qualify before them; where the other batch
/// is empty.
const BROKEN: [&str; 7] = [
    "original",
    "proposed",
    "both",
    "whole sum",
    "short",
    "bad, too",
    "& empty",
];

/// A check's batches, and the features.
#[derive(Clone, Copy)]
struct Asked<'a> {
    batches: [&'a [u8]; 2],
    features: u64,
}

#[derive(Default)]
pub struct Check {
    pairs: Pairs,
    commands: Commands,
    rows: Rows,
    states: [[u64; STATES.len()]; SAYS.len()],
    sizes: [[u64; SIZES.len()]; SAYS.len()],
    broken: [u64; BROKEN.len()],
    /// By the bytes over, in the original and in the proposal.
    over: [[u64; 15]; 2],
}

impl Check {
    /// A call with the kept memory and the second table.
    pub fn count(&mut self, lent: (&[u64], &[u64]), call: &Call, reply: &Reply) {
        let Call::CheckBatch {
            original,
            proposed,
            features,
        } = *call
        else {
            return;
        };
        let batches = [original, proposed];
        let asked = Asked { batches, features };
        match reply.number {
            23 => self.count_broken(asked),
            0 => {
                let says = reply.answer[0] as usize;
                self.pairs.count(asked, lent, reply);
                self.commands.count(asked, lent, reply);
                self.rows.count(asked, lent, reply);
                add(&mut self.states[says], states(lent.0[0]));
                add(&mut self.sizes[says], sizes(asked, lent));
            }
            _ => (),
        }
    }

    fn count_broken(&mut self, asked: Asked) {
        let [one, other] = asked.batches.map(|batch| batch.len() % 16);
        let bad = |batch: &&[u8]| commands::first_unfit(batch, asked.features).is_some();
        let ways = [
            one > 0 && other == 0,
            one == 0 && other > 0,
            one > 0 && other > 0,
            one + other == 16,
            asked
                .batches
                .iter()
                .any(|batch| (1..16).contains(&batch.len())),
            asked.batches.iter().any(bad),
            asked.batches.iter().any(|batch| batch.is_empty()),
        ];
        add(&mut self.broken, ways);
        for (counts, over) in self.over.iter_mut().zip([one, other]) {
            if over > 0 {
                counts[over - 1] += 1;
            }
        }
    }

    pub(super) fn print(&self, table: &mut Table) {
        self.pairs.print(table);
        self.commands.print(table);
        self.rows.print(table);
        heads("Control words", &STATES);
        for (name, counts) in SAYS.iter().zip(&self.states) {
            line(table, name, counts.map(|count| (count, true)));
        }
        heads("Sizes", &SIZES);
        for (name, counts) in SAYS.iter().zip(&self.sizes) {
            line(table, name, counts.map(|count| (count, true)));
        }
        heads("No 23", &BROKEN);
        line(table, "batches", self.broken.map(|count| (count, true)));
        let bytes: Vec<String> = (1..16).map(|over| format!("{over} over")).collect();
        let bytes: Vec<&str> = bytes.iter().map(String::as_str).collect();
        heads("No 23", &bytes);
        for (name, counts) in ["original", "proposed"].iter().zip(&self.over) {
            line(table, name, counts.map(|count| (count, true)));
        }
    }
}

fn states(word: u64) -> [bool; STATES.len()] {
    let control = Control::fields(word);
    let waits = control.distance(control.wr);
    [
        !control.enabled,
        control.active(),
        control.err == 1 && !control.active(),
        control.pending,
        waits == 0,
        waits == control.slots(),
        control.slots() == 1,
        control.slots() == SLOTS,
    ]
}

fn sizes(asked: Asked, (kept, table): (&[u64], &[u64])) -> [bool; SIZES.len()] {
    let (rows, regions) = (kept.len() as u64 / 4, table.len() as u64 / 2);
    let [one, other] = asked.batches.map(|batch| batch.len() as u64 / 16);
    [
        rows == 1,
        rows == ROWS,
        regions == 1,
        regions == REGIONS,
        one == 1,
        one == SLOTS,
        one == 1 << 16 | 1,
        other == 1,
        other == SLOTS,
        other == 1 << 16 | 1,
    ]
}

fn add<const N: usize>(counts: &mut [u64; N], met: [bool; N]) {
    for (count, met) in counts.iter_mut().zip(met) {
        *count += u64::from(met);
    }
}

fn heads(title: &str, columns: &[&str]) {
    print!("\n  {title:<14}");
    columns.iter().for_each(|head| print!("{head:>10}"));
    println!();
}

/// Counts, each with whether it has to occur.
fn line(table: &mut Table, name: &str, counts: impl IntoIterator<Item = (u64, bool)>) {
    print!("  {name:<14}");
    for (count, wanted) in counts {
        print!(" {}", table.cell(count, wanted));
    }
    println!();
}
