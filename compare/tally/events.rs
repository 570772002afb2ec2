//! What became of event records, for rings of each size (document 02, T-01).

use super::Table;
use crate::call::{Call, Reply, DROPPED, STORED};
use crate::limits::EVENTS;
use crate::model::events::Index;

/// Writes that are stored, with an overflow outstanding too, and into a slot that
/// was read out; that are cut after so many stores, or before a flip; that are
/// dropped with a flip, and without one, with none allowed too. Reads, and those
/// with RD's wrap bit set, and of a full ring. Acknowledges.
const WAYS: [&str; 16] = [
    "stored",
    "overflown",
    "reused",
    "cut 0",
    "cut 1",
    "cut 2",
    "cut 3",
    "cut 4",
    "cut flip",
    "flipped",
    "dropped",
    "at none",
    "read",
    "wrapped",
    "of full",
    "acked",
];
const SIZES: usize = EVENTS as usize + 1;

#[derive(Default)]
pub struct Events {
    ways: [[u64; WAYS.len()]; SIZES],
}

impl Events {
    /// A call that was carried out, with the index word before it.
    pub fn count(&mut self, call: &Call, reply: &Reply, before: u64) {
        let index = Index::fields(before);
        let [end, stores, ..] = reply.answer;
        match call {
            Call::EventWrite { allowance, .. } => match end {
                STORED => {
                    self.add(index.n, "stored", true);
                    self.add(index.n, "overflown", index.outstanding());
                }
                DROPPED => {
                    self.add(index.n, "flipped", stores == 1);
                    self.add(index.n, "dropped", stores == 0);
                    self.add(index.n, "at none", *allowance == 0);
                }
                _ if index.full() => self.add(index.n, "cut flip", true),
                _ => self.add(index.n, &format!("cut {stores}"), true),
            },
            Call::EventRead => {
                self.add(index.n, "read", true);
                self.add(index.n, "wrapped", index.rd >= index.slots());
                self.add(index.n, "of full", index.full());
            }
            _ => self.add(index.n, "acked", true),
        }
    }

    /// A record was stored where another had been stored and read out.
    pub fn count_reused(&mut self, n: u64) {
        self.add(n, "reused", true);
    }

    fn add(&mut self, n: u64, way: &str, met: bool) {
        let place = WAYS.iter().position(|&known| known == way);
        let place = place.expect("a way that is counted");
        self.ways[n as usize][place] += u64::from(met);
    }

    pub(super) fn print(&self, table: &mut Table) {
        print!("\n  {:<14}", "Events, n");
        WAYS.iter().for_each(|way| print!("{way:>10}"));
        println!();
        for (n, counts) in self.ways.iter().enumerate() {
            print!("  {n:<14}");
            counts
                .iter()
                .for_each(|&count| print!(" {}", table.cell(count, true)));
            println!();
        }
    }
}
