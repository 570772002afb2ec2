//! How the calls of nights ended, cut or not, and what became of those made again
//! (document 02, T-14).

use super::{Table, RUN_ENDS};
use crate::call::{Call, Reply, DROPPED, NAMES, STORED};

/// The ends of the calls. A run that was cut never ends Off or Held.
const ENDS: [&str; 15] = [
    "run Off",
    "run Held",
    "run Empty",
    "run Raised",
    "fill",
    "table_fill",
    "event_write",
    "drop",
    "doorbell",
    "acknowledge",
    "enable",
    "translate",
    "clear_pending",
    "event_read",
    "event_acknowledge",
];
/// Those that may have been cut before.
const CUT: std::ops::Range<usize> = 2..8;

/// Finished at once, finished after cuts, made again when it was finished, and refused.
const WAYS: [&str; 4] = ["at once", "cut", "again", "refused"];
const AT_ONCE: usize = 0;
const AFTER_CUTS: usize = 1;
const AGAIN: usize = 2;
const REFUSED: usize = 3;

/// What else may come of a call that is made again.
const OTHERS: [&str; 5] = [
    "stored again",
    "stored, then dropped",
    "read, then the next",
    "read, then 17",
    "refused again",
];

#[derive(Default)]
pub struct Nights {
    nights: u64,
    calls: u64,
    cuts: u64,
    ends: [[u64; WAYS.len()]; ENDS.len()],
    others: [u64; OTHERS.len()],
}

impl Nights {
    pub fn count_night(&mut self) {
        self.nights += 1;
    }

    /// A call that is finished after so many cuts.
    pub fn count(&mut self, call: &Call, reply: &Reply, cuts: u64) {
        self.calls += 1;
        self.cuts += cuts;
        let way = match (reply.number, cuts) {
            (0, 0) => AT_ONCE,
            (0, _) => AFTER_CUTS,
            _ => REFUSED,
        };
        self.ends[end(call, reply)][way] += 1;
    }

    /// A finished call that was made again, by its first answer and the second.
    pub fn count_repeat(&mut self, call: &Call, first: &Reply, second: &Reply) {
        self.ends[end(call, first)][AGAIN] += u64::from(first.number == 0);
        let stored = matches!(call, Call::EventWrite { .. }) && first.answer[0] == STORED;
        let other = match call {
            _ if first.number != 0 => "refused again",
            Call::EventRead if second.number == 0 => "read, then the next",
            Call::EventRead => "read, then 17",
            _ if stored && second.answer[0] == STORED => "stored again",
            _ if stored => "stored, then dropped",
            _ => return,
        };
        self.others[place(&OTHERS, other)] += 1;
    }

    pub(super) fn print(&self, table: &mut Table) {
        let (nights, calls, cuts) = (self.nights, self.calls, self.cuts);
        println!("\nNights: {nights}, {calls} calls, {cuts} cuts");
        print!("  {:<20}", "");
        WAYS.iter().for_each(|way| print!("{way:>9}"));
        println!();
        for (end, counts) in self.ends.iter().enumerate() {
            print!("  {:<20}", ENDS[end]);
            for (way, &count) in counts.iter().enumerate() {
                print!("{}", table.cell(count, wanted(end, way)));
            }
            println!();
        }
        for (name, &count) in OTHERS.iter().zip(&self.others) {
            println!("  {name:<20}{}", table.cell(count, true));
        }
    }
}

/// Where a finished call is counted.
fn end(call: &Call, reply: &Reply) -> usize {
    let first = reply.answer[0];
    match call {
        Call::Run { .. } if reply.number == 0 => {
            let name = format!("run {}", RUN_ENDS[first as usize]);
            place(&ENDS, &name)
        }
        Call::Run { .. } => place(&ENDS, "run Empty"),
        Call::EventWrite { .. } if first == DROPPED => place(&ENDS, "drop"),
        _ => place(&ENDS, NAMES[call.index()]),
    }
}

fn place(names: &[&str], name: &str) -> usize {
    let place = names.iter().position(|&known| known == name);
    place.expect("a name that is counted")
}

/// Whether a call can end so; a refused run counts as Empty, and no event write and no
/// enable is refused on accepted words.
fn wanted(end: usize, way: usize) -> bool {
    match way {
        AFTER_CUTS => CUT.contains(&end),
        REFUSED => {
            let never = [
                "run Off",
                "run Held",
                "run Raised",
                "event_write",
                "drop",
                "enable",
            ];
            !never.contains(&ENDS[end])
        }
        _ => true,
    }
}
