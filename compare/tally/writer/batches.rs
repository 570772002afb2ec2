//! Batches: into queues of every size, and where they were refused.

use super::commands::due;
use super::{add, heads, line};
use crate::call::Reply;
use crate::limits::LOG2SIZE;
use crate::model::control::Control;
use crate::tally::Table;

/// Batches that are written: empty ones, also into a full queue, of one command, into
/// the last free slots; over the end of the queue, to it, over the end of the indexes;
/// into queues that are off, held, and with an interrupt pending. Batches that are
/// refused with 22 for one command, and where no slot is free.
const WAYS: [&str; 12] = [
    "empty",
    "of full",
    "one",
    "filling",
    "round",
    "to end",
    "index",
    "off",
    "held",
    "pending",
    "over by 1",
    "no slot",
];
/// The bad command that is named: the first of the batch, one between, the last, one
/// that isn't whole; with a later one that gets the other number; with no room.
const NAMED: [&str; 6] = ["first", "between", "last", "broken", "& other", "no room"];
const SIZES: usize = LOG2SIZE as usize + 1;

#[derive(Default)]
pub struct Batches {
    ways: [[u64; WAYS.len()]; SIZES],
    named: [[u64; NAMED.len()]; 2],
}

impl Batches {
    pub fn count(&mut self, before: &[u64], (commands, features): (&[u64], u64), reply: &Reply) {
        let count = commands.len().div_ceil(16) as u64;
        let control = Control::fields(before.first().copied().unwrap_or(0));
        match reply.number {
            0 | 22 => self.count_way(control, count, reply.number == 0),
            20 | 21 => {
                let at = reply.answer[0];
                let other = 41 - reply.number;
                let later = |(number, words): (usize, &[u64])| match words.try_into() {
                    Ok(fields) => number as u64 > at && due(fields, features) == other,
                    Err(_) => number as u64 > at && other == 21,
                };
                let named = [
                    at == 0 && count > 1,
                    at > 0 && at + 1 < count,
                    at > 0 && at + 1 == count,
                    at == commands.len() as u64 / 16,
                    commands.chunks(16).enumerate().any(later),
                    count > control.slots() - control.distance(control.wr),
                ];
                add(&mut self.named[reply.number as usize - 20], named);
            }
            _ => (),
        }
    }

    fn count_way(&mut self, control: Control, count: u64, written: bool) {
        let free = control.slots() - control.distance(control.wr);
        let behind = control.wr % control.slots() + count;
        let some = written && count > 0;
        let ways = [
            written && count == 0,
            written && count == 0 && free == 0,
            some && count == 1,
            some && count == free,
            some && behind > control.slots(),
            some && behind == control.slots(),
            some && control.wr + count >= control.ring(),
            some && !control.enabled,
            some && control.active(),
            some && control.pending,
            !written && count == free + 1,
            !written && free == 0,
        ];
        add(&mut self.ways[control.log2size as usize], ways);
    }

    pub fn print(&self, table: &mut Table) {
        heads("Batches, size", &WAYS);
        for (log2size, counts) in self.ways.iter().enumerate() {
            let counts = counts.iter().zip(WAYS);
            // One slot has no end to go over.
            let wanted = |way: &str| log2size > 0 || way != "round";
            line(
                table,
                &log2size.to_string(),
                counts.map(|(&count, way)| (count, wanted(way))),
            );
        }
        heads("Bad commands", &NAMED);
        for (number, counts) in [20, 21].into_iter().zip(&self.named) {
            // A command that isn't whole is 21.
            let wanted = |way: &str| number == 21 || way != "broken";
            let counts = counts.iter().zip(NAMED);
            line(
                table,
                &format!("no {number}"),
                counts.map(|(&count, way)| (count, wanted(way))),
            );
        }
    }
}
