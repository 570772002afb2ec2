//! Finished calls that do something else when they are made again.

use super::Made;
use crate::call::{Call, DROPPED, HELD, RAISED, STORED};
use crate::model::control::Control;
use crate::model::events::Index;

const GERRORN: u64 = 1 << 48;
const ENABLED: u64 = 1 << 49;
const PENDING: u64 = 1 << 55;
const OVERFLOW: u64 = 1 << 40;
const ACKNOWLEDGED: u64 = 1 << 41;

pub const ALL: &[(&str, fn(&mut Made))] = &[
    ("a run repeated after Raised raises", |made| {
        if made.repeated() && run(made, HELD) {
            made.answer[0] = RAISED;
        }
    }),
    ("a run repeated after Empty sets the pending bit", |made| {
        if made.repeated() && run(made, 2) {
            made.memory.inner_mut()[0] |= PENDING;
        }
    }),
    ("a run repeated while off goes on", |made| {
        if made.repeated() && run(made, 0) {
            made.memory.inner_mut()[0] |= ENABLED;
        }
    }),
    ("a fill repeated is filled", |made| {
        if made.repeated() && made.number == 8 && matches!(made.call, Call::Fill { .. }) {
            made.tell(0, &[0, 4]);
        }
    }),
    ("a fill repeated empties the row", |made| {
        if made.repeated() && made.number == 8 && matches!(made.call, Call::Fill { .. }) {
            let place = made.row();
            made.memory.inner_mut()[place] = 0;
        }
    }),
    ("a fill repeated is a double", |made| {
        if made.repeated() && made.number == 8 && matches!(made.call, Call::Fill { .. }) {
            made.number = 11;
        }
    }),
    ("a fill of the table repeated is filled", |made| {
        if made.repeated() && made.number == 8 && matches!(made.call, Call::TableFill { .. }) {
            made.tell(0, &[0, 2]);
        }
    }),
    ("a doorbell repeated rings one further", |made| {
        let control = Control::fields(made.before.inner().first().copied().unwrap_or(0));
        let wr = (control.wr + 1) % control.ring();
        let room = control.distance(control.wr) < control.slots();
        if made.repeated() && room && matches!(made.call, Call::Doorbell { .. }) {
            made.memory.inner_mut()[0] = Control { wr, ..control }.pack();
        }
    }),
    ("a doorbell repeated is refused", |made| {
        if made.repeated() && matches!(made.call, Call::Doorbell { .. }) {
            made.tell(5, &[]);
        }
    }),
    ("an acknowledge repeated is taken", |made| {
        if made.repeated() && matches!(made.call, Call::Acknowledge) {
            made.tell(0, &[]);
        }
    }),
    ("an acknowledge repeated brings the error back", |made| {
        if made.repeated() && matches!(made.call, Call::Acknowledge) {
            made.memory.inner_mut()[0] ^= GERRORN;
        }
    }),
    ("an enable repeated switches over", |made| {
        if made.repeated() && matches!(made.call, Call::Enable { .. }) {
            made.memory.inner_mut()[0] ^= ENABLED;
        }
    }),
    ("a clear_pending repeated sets the bit", |made| {
        if made.repeated() && matches!(made.call, Call::ClearPending) {
            made.memory.inner_mut()[0] |= PENDING;
        }
    }),
    ("a clear_pending repeated is taken", |made| {
        if made.repeated() && matches!(made.call, Call::ClearPending) {
            made.tell(0, &[]);
        }
    }),
    ("a transaction repeated is aborted", |made| {
        if made.repeated() && matches!(made.call, Call::Translate(_)) && made.ends(0) {
            made.tell(0, &[1]);
        }
    }),
    ("a write repeated is known", |made| {
        if made.repeated() && write(made, STORED) {
            made.memory.take(&made.before);
        }
    }),
    ("a write repeated into a full ring is stored", |made| {
        if made.repeated() && write(made, DROPPED) {
            made.tell(0, &[STORED, 5]);
        }
    }),
    ("a drop repeated flips back", |made| {
        if made.repeated() && write(made, DROPPED) && made.answer[1] == 0 {
            made.memory.inner_mut()[0] ^= OVERFLOW;
        }
    }),
    ("a read repeated gives the same record", |made| {
        let index = Index::fields(made.before.inner().first().copied().unwrap_or(0));
        if made.repeated() && made.number == 0 && matches!(made.call, Call::EventRead) {
            let before = (index.rd + index.ring() - 1) % index.ring();
            let place = index.place(before);
            let words: Vec<u64> = made.before.inner()[place..place + 4].to_vec();
            made.restore(0);
            made.tell(0, &words);
        }
    }),
    ("a read repeated finds none", |made| {
        if made.repeated() && made.number == 0 && matches!(made.call, Call::EventRead) {
            made.restore(0);
            made.tell(17, &[]);
        }
    }),
    (
        "an event_acknowledge repeated brings the overflow back",
        |made| {
            if made.repeated() && made.number == 18 {
                made.memory.inner_mut()[0] ^= ACKNOWLEDGED;
            }
        },
    ),
    ("an event_acknowledge repeated is taken", |made| {
        if made.repeated() && made.number == 18 {
            made.tell(0, &[]);
        }
    }),
];

/// A run with this end.
fn run(made: &Made, end: u64) -> bool {
    made.ends(end) && matches!(made.call, Call::Run { .. })
}

/// A write with this end.
fn write(made: &Made, end: u64) -> bool {
    made.ends(end) && matches!(made.call, Call::EventWrite { .. })
}
