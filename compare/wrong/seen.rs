//! The unit on rows that are seen otherwise, and a run as runs of one command each.

use crate::call::{Call, CUT};
use crate::lent::{Lent, Memory};
use crate::model::control::Control;
use crate::model::image::{place, rows};
use crate::model::row::Row;
use crate::unit;

/// The call on rows that are seen otherwise; what is stored is stored in those that
/// are there.
pub fn seen(call: Call, memory: &mut Memory, answer: &mut Lent, see: impl Fn(Row) -> Row) -> u64 {
    let mut before = memory.inner().to_vec();
    for (number, row) in rows(memory.inner()).enumerate() {
        if row.used() {
            before[place(number)..][..4].copy_from_slice(&see(row).0);
        }
    }
    let mut copy = memory.beside(&before);
    let number = unit::perform(call, &mut copy, answer);
    memory.table_mut().copy_from_slice(copy.table());
    memory.bytes_mut().copy_from_slice(copy.bytes());
    let stored = copy.inner().iter().zip(&before);
    for (word, (new, old)) in memory.inner_mut().iter_mut().zip(stored) {
        if new != old {
            *word = *new;
        }
    }
    number
}

/// The call on a memory in which some used rows are empty; those come back as they were.
pub fn without(
    call: Call,
    memory: &mut Memory,
    answer: &mut Lent,
    hidden: impl Fn(usize, &Row) -> bool,
) -> u64 {
    let all: Vec<Row> = rows(memory.inner()).collect();
    let hidden = |number: &usize| all[*number].used() && hidden(*number, &all[*number]);
    let hidden: Vec<usize> = (0..all.len()).filter(hidden).collect();
    let mut words = memory.inner().to_vec();
    hidden.iter().for_each(|&number| words[place(number)] = 0);
    let mut copy = memory.beside(&words);
    let number = unit::perform(call, &mut copy, answer);
    words.copy_from_slice(copy.inner());
    hidden.iter().for_each(|&row| words[place(row)] = all[row].0[0]);
    memory.inner_mut().copy_from_slice(&words);
    memory.table_mut().copy_from_slice(copy.table());
    memory.bytes_mut().copy_from_slice(copy.bytes());
    number
}

/// The run over the only command that waits.
pub trait Each: Fn(Call, u64, &mut Memory, &mut Lent) -> u64 {}
impl<T: Fn(Call, u64, &mut Memory, &mut Lent) -> u64> Each for T {}

const EMPTY: u64 = 2;

/// A run of one command after the other, each of them by a run of its own that is
/// told the slot.
pub fn one_by_one(call: Call, memory: &mut Memory, answer: &mut Lent, each: impl Each) -> u64 {
    let mut sums = [0; 4];
    loop {
        let (number, over) = step(with_left(call, sums[1]), memory, answer, &each);
        (0..4).for_each(|count| sums[count] += answer.inner()[1 + count]);
        if over && number == 0 {
            answer.inner_mut()[1..5].copy_from_slice(&sums);
        }
        if over {
            return number;
        }
    }
}

/// The run with so many stores made.
fn with_left(call: Call, made: u64) -> Call {
    let mut numbers = call.numbers();
    numbers[1] -= made;
    call.passing(&numbers)
}

/// One command, or where none is due the end of the run; whether it was the end.
fn step(call: Call, memory: &mut Memory, answer: &mut Lent, each: &impl Each) -> (u64, bool) {
    let mut copy = memory.copy();
    let none = call.passing(&[call.numbers()[0], 0]);
    if unit::perform(none, &mut copy, answer) != 0 || answer.inner()[0] != CUT {
        return (unit::perform(call, memory, answer), true);
    }
    let control = Control::fields(memory.inner()[0]);
    let (wr, slot) = ((control.rd + 1) % control.ring(), control.slot());
    memory.inner_mut()[0] = Control { wr, ..control }.pack();
    let number = each(call, slot, memory, answer);
    let wr = control.wr;
    let control = Control::fields(memory.inner()[0]);
    memory.inner_mut()[0] = Control { wr, ..control }.pack();
    (number, answer.inner()[0] != EMPTY)
}
