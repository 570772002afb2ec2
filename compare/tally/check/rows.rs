//! The row that is named, and which others differ.

use super::commands::taken;
use super::{add, heads, line, Asked};
use crate::call::{Reply, DIFFERS, YES};
use crate::tally::Table;

/// Its place in its table; whether it is the only one that differs, and whether some
/// above it do, of its own table and of the other; whether the original takes it or the
/// proposal; whether rows below it go by both, and rows above.
const NAMED: [&str; 10] = [
    "first", "between", "last", "alone", "above", "& region", "original", "proposed", "& below",
    "& above",
];
/// What a yes leaves: all rows, some, none in use; with rows of either table taken; with
/// one row taken by several commands of a batch.
const LEFT: [&str; 6] = ["all", "some", "none", "rows", "regions", "twice"];

/// Larger ones are not counted: that would take long.
const LARGE: usize = 1 << 16;

#[derive(Default)]
pub struct Rows {
    named: [[u64; NAMED.len()]; 2],
    left: [u64; LEFT.len()],
}

impl Rows {
    pub fn count(&mut self, asked: Asked, lent: (&[u64], &[u64]), reply: &Reply) {
        let (rows, regions) = (lent.0.len() / 4, lent.1.len() / 2);
        let commands = asked.batches.map(|batch| batch.len() / 16);
        if (commands[0] + commands[1]) * (rows + regions) > LARGE {
            return;
        }
        let [one, other] = asked
            .batches
            .map(|batch| taken(batch, asked.features, lent));
        match reply.answer[0] {
            DIFFERS => self.count_named(reply.answer[1] as usize, rows, &one, &other),
            YES => {
                let used = |place: usize| match place.checked_sub(rows) {
                    None => lent.0[1 + 4 * place] != 0,
                    Some(region) => lent.1[2 * region] != 0,
                };
                let gone = one.iter().filter(|&&count| count > 0).count();
                let all = (0..rows + regions).filter(|&place| used(place)).count();
                let left = [
                    gone == 0 && all > 0,
                    gone > 0 && gone < all,
                    gone > 0 && gone == all,
                    one[..rows].iter().any(|&count| count > 0),
                    one[rows..].iter().any(|&count| count > 0),
                    one.iter().any(|&count| count > 1),
                ];
                add(&mut self.left, left);
            }
            _ => (),
        }
    }

    /// How many commands of each batch are after each row.
    fn count_named(&mut self, named: usize, rows: usize, one: &[usize], other: &[usize]) {
        let differs = |place: usize| (one[place] > 0) != (other[place] > 0);
        let both = |place: usize| one[place] > 0 && other[place] > 0;
        let of_table = named >= rows;
        let (first, last) = match of_table {
            false => (0, rows - 1),
            true => (rows, one.len() - 1),
        };
        let above = named + 1..=last;
        let rest = last + 1..one.len();
        let met = [
            named == first,
            named > first && named < last,
            named == last,
            !(named + 1..one.len()).any(differs),
            above.clone().any(differs),
            rest.clone().any(differs),
            one[named] > 0,
            other[named] > 0,
            (0..named).any(both),
            (named + 1..one.len()).any(both),
        ];
        add(&mut self.named[usize::from(of_table)], met);
    }

    pub fn print(&self, table: &mut Table) {
        heads("Row named", &NAMED);
        for (of_table, counts) in self.named.iter().enumerate() {
            // Behind the second table comes nothing.
            let wanted = |way: &str| of_table == 0 || way != "& region";
            let counts = counts.iter().zip(NAMED);
            line(
                table,
                ["row", "region"][of_table],
                counts.map(|(&count, way)| (count, wanted(way))),
            );
        }
        heads("Rows left", &LEFT);
        line(table, "yes", self.left.map(|count| (count, true)));
    }
}
