//! Reads and acknowledges that take, move or flip otherwise.

use super::{Made, OVERFLOW, SEEN};
use crate::call::Call;
use crate::model::events::Index;

pub const MADE: &[(&str, fn(&mut Made))] = &[
    ("read at WR", |made| told(made, |index| index.wr)),
    ("the newest read", |made| {
        told(made, |index| index.wr + index.ring() - 1);
    }),
    ("the second read", |made| told(made, |index| index.rd + 1)),
    ("slot 0 read", |made| told(made, |_| 0)),
    ("RD stays", |made| moved(made, |index, _| index.rd)),
    ("RD moves to WR", |made| moved(made, |index, _| index.wr)),
    ("RD doesn't wrap", |made| {
        moved(made, |index, _| index.rd + 1);
    }),
    ("RD loses its wrap bit", |made| {
        moved(made, |index, rd| rd % index.slots());
    }),
    ("WR moves and RD stays", |made| {
        if made.reads() {
            let (index, before) = (made.index(), made.before[0]);
            let wr = (index.wr + 1) % index.ring();
            made.after[0] = before;
            made.put(|index| Index { wr, ..index });
        }
    }),
    ("a slot read out is cleared", |made| {
        if made.reads() {
            let first = made.index().place(made.index().rd);
            made.after[first..first + 4].fill(0);
        }
    }),
    ("reading acknowledges", |made| {
        if made.reads() {
            made.put(|index| Index {
                acknowledged: index.overflow,
                ..index
            });
        }
    }),
    ("reading a full ring flips the flag back", |made| {
        if made.reads() && made.index().full() && made.index().outstanding() {
            made.after[0] ^= OVERFLOW;
        }
    }),
    ("words told from the last to the first", |made| {
        if made.reads() {
            made.answer[..4].reverse();
        }
    }),
    ("words told big-endian", |made| {
        if made.reads() {
            made.answer = made.answer.map(u64::swap_bytes);
        }
    }),
    ("the records left are told", |made| {
        if made.reads() {
            made.answer[4] = made.index().held() - 1;
        }
    }),
    ("nothing told", |made| {
        if made.reads() {
            made.answer = [0; 8];
        }
    }),
    ("a full ring told as empty", |made| {
        if made.reads() && made.index().full() {
            made.refuse(17);
        }
    }),
    ("one record told as none", |made| {
        if made.reads() && made.index().held() == 1 {
            made.refuse(17);
        }
    }),
    ("an empty ring told as empty record", |made| {
        if made.number == 17 {
            made.number = 0;
        }
    }),
    ("an empty ring read", |made| {
        if made.number == 17 {
            let words = made.slot(made.index().rd);
            made.number = 0;
            made.answer[..4].copy_from_slice(&words);
            step(made);
        }
    }),
    ("RD moves with 17", |made| {
        if made.number == 17 {
            step(made);
        }
    }),
    ("acknowledging flips the overflow flag", |made| {
        flagged(made, |word| word ^ OVERFLOW);
    }),
    ("acknowledging clears both flags", |made| {
        flagged(made, |word| word & !(OVERFLOW | SEEN));
    }),
    ("acknowledging sets both flags", |made| {
        flagged(made, |word| word | OVERFLOW | SEEN);
    }),
    ("acknowledging stores nothing", |made| {
        flagged(made, |word| word)
    }),
    ("acknowledging flips both flags", |made| {
        flagged(made, |word| word ^ (OVERFLOW | SEEN));
    }),
    ("acknowledging empties the ring", |made| {
        if made.acknowledges() {
            made.put(|index| Index {
                rd: index.wr,
                ..index
            });
        }
    }),
    ("acknowledging takes a record out", |made| {
        if made.acknowledges() && made.index().held() > 0 {
            step(made);
        }
    }),
    ("acknowledging tells something", |made| {
        if made.acknowledges() {
            made.answer[0] = 1;
        }
    }),
    ("18 given to an overflow", |made| {
        if made.acknowledges() {
            made.refuse(18);
        }
    }),
    ("18 while the ring is full", |made| {
        if made.acknowledges() && made.index().full() {
            made.refuse(18);
        }
    }),
    ("18 if the overflow flag is 0", |made| {
        if made.acknowledges() && !made.index().overflow {
            made.refuse(18);
        }
    }),
    ("17 to an acknowledge of an empty ring", |made| {
        if made.acknowledges() && made.index().held() == 0 {
            made.refuse(17);
        }
    }),
    ("no overflow acknowledged", |made| {
        if made.number == 18 {
            made.number = 0;
        }
    }),
    ("no overflow acknowledged by a flip", |made| {
        if made.number == 18 {
            made.number = 0;
            made.after[0] ^= SEEN;
        }
    }),
    ("the flag flips with 18", |made| {
        if made.number == 18 {
            made.after[0] ^= SEEN;
        }
    }),
    ("18 to a read with no overflow", |made| {
        if made.reads() && !made.index().outstanding() {
            made.refuse(18);
        }
    }),
    ("17 to a write of an empty ring", |made| {
        if made.written().is_some() && made.index().held() == 0 {
            made.refuse(17);
        }
    }),
    ("18 to a write with an overflow", |made| {
        if made.written().is_some() && made.index().outstanding() {
            made.refuse(18);
        }
    }),
];

/// Another slot is told.
fn told(made: &mut Made, other: fn(Index) -> u64) {
    if made.reads() {
        let words = made.slot(other(made.index()));
        made.answer[..4].copy_from_slice(&words);
    }
}

/// RD becomes this, given the old index word and what it ought to become.
fn moved(made: &mut Made, other: fn(Index, u64) -> u64) {
    if made.reads() {
        let before = made.index();
        made.put(|after| Index {
            rd: other(before, after.rd),
            ..after
        });
    }
}

/// RD one further.
fn step(made: &mut Made) {
    made.put(|index| Index {
        rd: (index.rd + 1) % index.ring(),
        ..index
    });
}

/// An acknowledge makes this of the index word.
fn flagged(made: &mut Made, other: fn(u64) -> u64) {
    if let (true, Call::EventAcknowledge) = (made.acknowledges(), made.call) {
        made.after[0] = other(made.before[0]);
    }
}
