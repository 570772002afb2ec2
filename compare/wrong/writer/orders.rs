//! Refusals of batches in another order, and what they name.

use super::made::{Fault, Made};

pub fn all() -> impl Iterator<Item = Fault> {
    ORDER.into_iter().chain(NAMES)
}

/// The first of the batch's commands that gets one of the numbers.
fn first(made: &Made, numbers: &[u64]) -> Option<(u64, u64)> {
    let own = made.own();
    let place = own.iter().position(|number| numbers.contains(number))?;
    Some((own[place], place as u64))
}

/// A refusal of a command in the place of one that is due before it.
fn early(made: &mut Made, due: u64, numbers: &[u64]) {
    if made.number != due {
        return;
    }
    if let Some((number, place)) = first(made, numbers) {
        made.refuse(number, place);
    }
}

/// 22 in the place of one that is due before it.
fn no_room(made: &mut Made, due: &[u64]) {
    if due.contains(&made.number) && made.own().len() as u64 > made.free() {
        made.refuse(22, 0);
    }
}

/// The command that is named after 20 or 21.
fn named(made: &mut Made, name: impl Fn(&Made, u64) -> u64) {
    if matches!(made.number, 20 | 21) {
        made.answer[0] = name(made, made.answer[0]);
    }
}

/// The last command that gets one of the numbers.
fn last(made: &Made, numbers: &[u64]) -> u64 {
    let own = made.own();
    let place = own.iter().rposition(|number| numbers.contains(number));
    place.unwrap_or(0) as u64
}

/// Which refusal comes first.
const ORDER: [Fault; 19] = [
    ("22 before 20", |made| no_room(made, &[20])),
    ("22 before 21", |made| no_room(made, &[21])),
    ("22 before 4", |made| no_room(made, &[4])),
    ("20 before 1", |made| early(made, 1, &[20])),
    ("21 before 1", |made| early(made, 1, &[21])),
    ("20 before 2", |made| early(made, 2, &[20])),
    ("21 before 2", |made| early(made, 2, &[21])),
    ("20 before 3", |made| early(made, 3, &[20])),
    ("21 before 3", |made| early(made, 3, &[21])),
    ("20 before 4", |made| early(made, 4, &[20])),
    ("21 before 4", |made| early(made, 4, &[21])),
    ("a command's words looked at before 4", |made| {
        if made.number == 4 && made.commands.len() % 16 != 0 {
            made.refuse(21, made.count());
        }
    }),
    ("any 20 before any 21", |made| {
        if made.number == 21 {
            if let Some((number, place)) = first(made, &[20]) {
                made.refuse(number, place);
            }
        }
    }),
    ("any 21 before any 20", |made| {
        if made.number == 20 {
            if let Some((number, place)) = first(made, &[21]) {
                made.refuse(number, place);
            }
        }
    }),
    ("one that isn't whole before the others", |made| {
        if matches!(made.number, 20 | 21) && made.commands.len() % 16 != 0 {
            made.refuse(21, made.count());
        }
    }),
    ("one that isn't whole behind 22", |made| {
        let broken = made.number == 21 && made.answer[0] == made.count();
        if broken && made.count() > made.free() {
            made.refuse(22, 0);
        }
    }),
    ("one that isn't whole as 22", |made| {
        if made.number == 21 && made.answer[0] == made.count() {
            made.refuse(22, 0);
        }
    }),
    ("4 not tried for an empty batch", |made| {
        if made.number == 4 && made.commands.is_empty() {
            made.refuse(0, 0);
        }
    }),
    ("3 not tried for an empty batch", |made| {
        if made.number == 3 && made.commands.is_empty() {
            made.refuse(0, 0);
        }
    }),
];

/// What the answer names.
const NAMES: [Fault; 12] = [
    ("the last bad command named", |made| {
        named(made, |made, _| last(made, &[20, 21]))
    }),
    ("the last of the same number named", |made| {
        let number = made.number;
        named(made, |made, _| last(made, &[number]))
    }),
    ("commands counted from 1", |made| {
        named(made, |_, at| at + 1)
    }),
    ("no command named", |made| named(made, |_, _| 0)),
    ("a command's word named", |made| {
        named(made, |_, at| 16 * at)
    }),
    ("a command's slot named", |made| {
        named(made, |made, at| {
            (made.control().wr + at) % made.control().slots()
        })
    }),
    ("a command's index named", |made| {
        named(made, |made, at| {
            (made.control().wr + at) % made.control().ring()
        })
    }),
    ("bad commands counted", |made| {
        named(made, |made, _| {
            made.own().iter().filter(|&&number| number != 0).count() as u64
        })
    }),
    ("the code told, too", |made| {
        if matches!(made.number, 20 | 21) && made.answer[0] < made.count() {
            made.answer[1] = made.named(made.answer[0]).code();
        }
    }),
    ("22 tells the free slots", |made| {
        if made.number == 22 {
            made.answer[0] = made.free();
        }
    }),
    ("22 tells the command", |made| {
        if made.number == 22 {
            made.answer[0] = made.free().max(1);
        }
    }),
    ("4 tells the length", |made| {
        if made.number == 4 {
            made.answer[0] = made.queue.len() as u64;
        }
    }),
];
