//! Calls that leave another word where they are cut, or tell other counts.

use super::Made;
use crate::call::{Call, CUT, FILL_CUT, WRITE_CUT};
use crate::model::control::Control;
use crate::model::events::Index;

pub const ALL: &[(&str, fn(&mut Made))] = &[
    ("a cut run sets the pending bit", |made| {
        if run(made) {
            made.memory.inner_mut()[0] |= 1 << 55;
        }
    }),
    ("a cut run tells a command more", |made| {
        if run(made) {
            made.answer[1] += 1;
        }
    }),
    ("a cut run tells no store", |made| {
        if run(made) {
            made.answer[2] = 0;
        }
    }),
    (
        "a cut run has consumed the command before its rows",
        |made| {
            if run(made) {
                let control = Control::fields(made.memory.inner()[0]);
                let rd = (control.rd + 1) % control.ring();
                made.memory.inner_mut()[0] = Control { rd, ..control }.pack();
            }
        },
    ),
    ("a cut run leaves the last row empty", |made| {
        let last = made.memory.inner().len() - 4;
        if run(made) {
            made.memory.inner_mut()[last] = 0;
        }
    }),
    ("a cut fill has stored word 0 first", |made| {
        if let (true, Call::Fill { words, .. }) = (made.ends(FILL_CUT), made.call) {
            let place = made.row();
            made.memory.inner_mut()[place] = words[0];
        }
    }),
    ("a cut fill leaves a word in the row before", |made| {
        let place = made.row();
        if let (true, Call::Fill { .. }, 5..) = (made.ends(FILL_CUT), made.call, place) {
            made.memory.inner_mut()[place - 1] ^= 1 << 12;
        }
    }),
    ("a cut fill of the table has stored word 0 first", |made| {
        if let (true, Call::TableFill { words, .. }) = (made.ends(FILL_CUT), made.call) {
            let place = made.row();
            made.memory.table_mut()[place] = words[0];
        }
    }),
    ("a cut fill of the table leaves no row before it", |made| {
        let place = made.row();
        if let (true, Call::TableFill { .. }, 2..) = (made.ends(FILL_CUT), made.call, place) {
            made.memory.table_mut()[place - 2] = 0;
        }
    }),
    ("a write cut before its last store has moved WR", |made| {
        if write(made) && made.answer[1] == 4 {
            let index = Index::fields(made.memory.inner()[0]);
            let wr = (index.wr + 1) % index.ring();
            made.memory.inner_mut()[0] = Index { wr, ..index }.pack();
        }
    }),
    ("a cut write leaves the oldest record otherwise", |made| {
        let index = Index::fields(made.before.inner().first().copied().unwrap_or(0));
        if write(made) && index.held() > 0 {
            made.memory.inner_mut()[index.place(index.rd)] ^= 1;
        }
    }),
    ("a cut write takes the oldest record", |made| {
        let index = Index::fields(made.before.inner().first().copied().unwrap_or(0));
        if write(made) && index.held() > 0 {
            let rd = (index.rd + 1) % index.ring();
            made.memory.inner_mut()[0] = Index { rd, ..index }.pack();
        }
    }),
];

fn run(made: &Made) -> bool {
    made.ends(CUT) && matches!(made.call, Call::Run { .. })
}

fn write(made: &Made) -> bool {
    made.ends(WRITE_CUT) && matches!(made.call, Call::EventWrite { .. })
}
