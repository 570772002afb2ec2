//! Wrong units to which other rows are well formed.

use super::seen::seen;
use crate::call::Call;
use crate::generate::random::Random;
use crate::lent::{Lent, Memory};
use crate::model::image::{place, rows};
use crate::model::row::Row;
use crate::unit;

#[derive(Clone, Copy)]
pub enum Fault {
    /// The call refuses a memory with such a row.
    Refuses(usize, fn(&Row) -> bool),
    /// A fill refuses such words.
    Unfit(fn(&Row) -> bool),
    /// The call takes rows for well formed by seeing them so.
    Takes(usize, fn(Row) -> Row),
    /// A fill takes words for well formed.
    Fits(fn(Row) -> Row),
}

const STATE: usize = 6;

/// Rows that are refused, and those that are accepted by being seen so, by state and
/// by a fill.
pub fn all<'a>(
    refused: &'a [(&str, fn(&Row) -> bool)],
    accepted: &'a [(&str, fn(Row) -> Row)],
) -> impl Iterator<Item = (String, Fault)> + 'a {
    let refused = refused.iter().flat_map(|&(name, test)| {
        [
            (
                format!("state: {name} refused"),
                Fault::Refuses(STATE, test),
            ),
            (format!("fill: words of {name} refused"), Fault::Unfit(test)),
        ]
    });
    let accepted = accepted.iter().flat_map(|&(name, made)| {
        [
            (format!("state: {name} accepted"), Fault::Takes(STATE, made)),
            (
                format!("fill: words with {name} accepted"),
                Fault::Fits(made),
            ),
        ]
    });
    refused.chain(accepted)
}

impl Fault {
    /// Makes the call as `unit::perform` does, with the fault.
    pub fn perform(self, call: Call, memory: &mut Memory, answer: &mut Lent) -> u64 {
        match self {
            Fault::Takes(of, made) if of == call.index() => seen(call, memory, answer, made),
            _ => {
                let before = memory.copy();
                let number = unit::perform(call, memory, answer);
                self.spoil(call, (&before, number), memory, answer.inner_mut())
            }
        }
    }

    /// What comes back, once the unit was called.
    fn spoil(
        self,
        call: Call,
        (before, number): (&Memory, u64),
        memory: &mut Memory,
        answer: &mut [u64],
    ) -> u64 {
        match (self, call, number) {
            (Fault::Refuses(of, test), _, 0 | 3..) if of == call.index() => {
                let bad = |row: Row| row.used() && test(&row);
                let lowest = rows(before.inner()).position(bad).map(|row| row as u64);
                let Some(lowest) = lowest.filter(|&row| number != 3 || row < answer[0]) else {
                    return number;
                };
                memory.take(before);
                answer.fill(0);
                answer[0] = lowest;
                3
            }
            (Fault::Unfit(test), Call::Fill { words, .. }, 0) if test(&Row(words)) => {
                memory.take(before);
                answer.fill(0);
                9
            }
            (Fault::Fits(made), Call::Fill { row, words, .. }, 9) if words[0] != 0 => {
                let Row(seen) = made(Row(words));
                fill(call, (row, words, seen), memory, answer)
            }
            _ => number,
        }
    }
}

/// A fill that goes by other words than those that it stores.
fn fill(
    call: Call,
    (row, words, seen): (u64, [u64; 4], [u64; 4]),
    memory: &mut Memory,
    answer: &mut [u64],
) -> u64 {
    let mut numbers = call.numbers();
    numbers[1..5].copy_from_slice(&seen);
    let mut told = Lent::new(answer, &mut Random::new(0));
    let number = unit::perform(call.passing(&numbers), memory, &mut told);
    answer.copy_from_slice(told.inner());
    if number == 0 {
        for word in [1, 2, 3, 0].into_iter().take(answer[1] as usize) {
            memory.inner_mut()[place(row as usize) + word] = words[word];
        }
    }
    number
}
