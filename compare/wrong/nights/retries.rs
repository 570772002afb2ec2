//! Cut calls that do something else when they are made again and finish.

use super::Made;
use crate::call::{Call, DROPPED, HELD, RAISED, STORED};
use crate::generate::random::Random;
use crate::lent::Lent;
use crate::model::control::Control;
use crate::model::events::Index;
use crate::unit;

/// The words of a row in the order of a fill's stores.
const ORDER: [usize; 4] = [1, 2, 3, 0];

pub const ALL: &[(&str, fn(&mut Made))] = &[
    ("a run made again starts one command late", late),
    ("a run made again forgets the pending bit", |made| {
        if run(made) {
            made.memory.inner_mut()[0] &= !(1 << 55);
        }
    }),
    ("a run made again tells the command before", |made| {
        if run(made) {
            made.answer[1] += 1;
        }
    }),
    ("a run made again tells the stores before", |made| {
        if let (Some(stores), Call::Run { .. }) = (made.retried(), made.call) {
            made.answer[2] += stores;
        }
    }),
    ("a run made again is Held", |made| {
        if run(made) && made.answer[0] == RAISED {
            made.answer[0] = HELD;
        }
    }),
    ("a fill made again goes on a word too far", |made| {
        if let (Some(stores @ 0..4), Call::Fill { .. }) = (made.retried(), made.call) {
            made.restore(made.row() + ORDER[stores as usize]);
        }
    }),
    ("a fill made again tells the rest alone", |made| {
        if let (Some(stores), Call::Fill { .. }) = (made.retried(), made.call) {
            made.answer[1] -= stores;
        }
    }),
    ("a fill made again is refused with 8", |made| {
        if let (Some(1..), Call::Fill { .. }) = (made.retried(), made.call) {
            made.restore(made.row());
            made.tell(8, &[]);
        }
    }),
    ("a fill made again spares its last store", |made| {
        if let (Some(_), Call::Fill { .. }) = (made.retried(), made.call) {
            made.restore(made.row());
        }
    }),
    (
        "a fill of the table made again goes on a word too far",
        |made| {
            if let (Some(stores @ 0..2), Call::TableFill { .. }) = (made.retried(), made.call) {
                made.restore_region(made.row() + 1 - stores as usize);
            }
        },
    ),
    ("a write made again is stored twice", |made| {
        if made.retried().is_some() && write(made, STORED) {
            made.once_more();
        }
    }),
    ("a write made again goes on a word too far", |made| {
        if let (Some(stores @ 0..4), true) = (made.retried(), write(made, STORED)) {
            let index = Index::fields(made.before.inner()[0]);
            made.restore(index.place(index.wr) + stores as usize);
        }
    }),
    ("a drop made again flips nothing", |made| {
        if made.retried().is_some() && write(made, DROPPED) {
            made.restore(0);
        }
    }),
    ("a drop made again is stored", |made| {
        if made.retried().is_some() && write(made, DROPPED) {
            made.answer[0] = STORED;
        }
    }),
];

/// A run that was cut before, and now is finished.
fn run(made: &Made) -> bool {
    made.retried().is_some() && matches!(made.call, Call::Run { .. })
}

/// A write with this end.
fn write(made: &Made, end: u64) -> bool {
    made.ends(end) && matches!(made.call, Call::EventWrite { .. })
}

/// The command at RD is gone before the run starts again.
fn late(made: &mut Made) {
    if !run(made) {
        return;
    }
    let control = Control::fields(made.before.inner()[0]);
    let rd = (control.rd + 1) % control.ring();
    made.memory.take(&made.before);
    made.memory.inner_mut()[0] = Control { rd, ..control }.pack();
    let garbage = &mut Random::new(0);
    let mut answer = Lent::new(&[0; 8], garbage);
    made.number = unit::perform(made.call, made.memory, &mut answer);
    made.answer = std::array::from_fn(|word| answer.inner()[word]);
}
