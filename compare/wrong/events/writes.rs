//! Writes that store, drop, cut or count otherwise.

use super::{cut, Made, OVERFLOW, SEEN};
use crate::call::{Call, DROPPED, STORED, WRITE_CUT};
use crate::model::events::Index;

pub const ORDERS: [(&str, [usize; 5]); 6] = [
    ("the index word first", [4, 0, 1, 2, 3]),
    ("the index word after the first word", [0, 4, 1, 2, 3]),
    ("the index word before the last word", [0, 1, 2, 4, 3]),
    ("word 1 before word 0", [1, 0, 2, 3, 4]),
    ("word 3 before word 2", [0, 1, 3, 2, 4]),
    ("the last word first", [3, 2, 1, 0, 4]),
];

pub const RECORDS: [(&str, fn([u8; 32]) -> [u8; 32]); 7] = [
    ("words from the last to the first", |record| {
        std::array::from_fn(|byte| record[24 - byte / 8 * 8 + byte % 8])
    }),
    ("words 0 and 1 exchanged", |record| {
        std::array::from_fn(|byte| record[if byte < 16 { byte ^ 8 } else { byte }])
    }),
    ("words 2 and 3 exchanged", |record| {
        std::array::from_fn(|byte| record[if byte < 16 { byte } else { byte ^ 8 }])
    }),
    ("big-endian words", |record| {
        std::array::from_fn(|byte| record[byte ^ 7])
    }),
    ("halves of words exchanged", |record| {
        std::array::from_fn(|byte| record[byte ^ 4])
    }),
    ("the first byte lost", |mut record| {
        record[0] = 0;
        record
    }),
    ("the top bit lost", |mut record| {
        record[31] &= 0x7F;
        record
    }),
];

pub const MADE: &[(&str, fn(&mut Made))] = &[
    ("a drop flips an outstanding flag", |made| {
        if made.ends(DROPPED) && made.answer[1] == 0 && made.allowance() > 0 {
            made.after[0] ^= OVERFLOW;
            made.answer[1] = 1;
        }
    }),
    ("a drop flips nothing", |made| {
        if made.ends(DROPPED) {
            made.after[0] = made.before[0];
            made.answer[1] = 0;
        }
    }),
    ("a drop stores the same word", |made| {
        flip(made, |word| word);
    }),
    ("a drop sets the flag", |made| {
        flip(made, |word| word | OVERFLOW);
    }),
    ("a drop flips the acknowledgement", |made| {
        flip(made, |word| word ^ SEEN);
    }),
    ("a drop flips both flags", |made| {
        flip(made, |word| word ^ (OVERFLOW | SEEN));
    }),
    ("a drop overwrites the oldest", overwrite),
    ("a drop leaves the record in the slot", |made| {
        if let (true, Call::EventWrite { record, .. }) = (made.ends(DROPPED), made.call) {
            let first = made.index().place(made.index().wr);
            made.after[first..first + 4].copy_from_slice(&words(record));
        }
    }),
    ("a drop is refused with 17", |made| {
        if made.ends(DROPPED) {
            made.answer = [0; 8];
            made.number = 17;
        }
    }),
    ("a drop told as stored", |made| {
        if made.ends(DROPPED) {
            made.answer[0] = STORED;
        }
    }),
    ("a flip not counted", |made| {
        if made.ends(DROPPED) {
            made.answer[1] = 0;
        }
    }),
    ("a drop without a store counted", |made| {
        if made.ends(DROPPED) {
            made.answer[1] = 1;
        }
    }),
    ("a drop without a store cut at none", |made| {
        if made.ends(DROPPED) && made.allowance() == 0 {
            made.answer[0] = WRITE_CUT;
        }
    }),
    ("a drop with a flip not cut at none", |made| {
        if made.ends(WRITE_CUT) && !made.placed() {
            made.answer[0] = DROPPED;
        }
    }),
    ("a flip at none", |made| {
        if made.ends(WRITE_CUT) && !made.placed() {
            made.tell(DROPPED, 1);
            made.after[0] ^= OVERFLOW;
        }
    }),
    ("a flip wants five stores", |made| {
        if made.ends(DROPPED) && made.answer[1] == 1 && made.allowance() < 5 {
            made.tell(WRITE_CUT, 0);
            made.after[0] = made.before[0];
        }
    }),
    ("dropped while an overflow is outstanding", |made| {
        if made.placed() && made.index().outstanding() {
            made.tell(DROPPED, 0);
            made.after = made.before.to_vec();
        }
    }),
    ("full one early", |made| {
        if made.placed() && made.index().held() + 1 == made.index().slots() {
            early(made);
        }
    }),
    ("a full ring written as an empty one", |made| {
        if made.written().is_some() && !made.placed() {
            let index = made.index();
            let mut words = made.before.to_vec();
            words[0] = Index {
                rd: index.wr,
                ..index
            }
            .pack();
            made.after = made.taken(&words).expect("an empty ring");
            made.put(|after| Index {
                rd: index.rd,
                ..after
            });
        }
    }),
    ("WR doesn't wrap", |made| {
        moved(made, |index, _| index.wr + 1);
    }),
    ("WR loses its wrap bit", |made| {
        moved(made, |index, wr| wr % index.slots());
    }),
    ("WR stays", |made| moved(made, |index, _| index.wr)),
    ("WR moves by two", |made| {
        moved(made, |index, wr| (wr + 1) % index.ring());
    }),
    ("written to the slot at RD", |made| {
        written_to(made, |index| index.rd);
    }),
    ("written to the next slot", |made| {
        written_to(made, |index| index.wr + 1);
    }),
    ("storing clears the overflow", |made| {
        stored(made, |index| Index {
            overflow: false,
            ..index
        });
    }),
    ("storing acknowledges", |made| {
        stored(made, |index| Index {
            acknowledged: index.overflow,
            ..index
        });
    }),
    ("a store more told of a cut", |made| {
        if cut(made) {
            made.answer[1] += 1;
        }
    }),
    ("the index word not counted", |made| {
        if made.ends(STORED) {
            made.answer[1] = 4;
        }
    }),
    ("no store told of a cut", |made| {
        if cut(made) {
            made.answer[1] = 0;
        }
    }),
    ("stored before the last store", |made| {
        if cut(made) && made.answer[1] == 4 {
            made.answer[0] = STORED;
        }
    }),
    ("cut with exactly enough", |made| {
        if made.ends(STORED) && made.allowance() == 5 {
            made.answer[0] = WRITE_CUT;
        }
    }),
    ("Dropped and Cut exchanged", |made| {
        if made.ends(DROPPED) || made.ends(WRITE_CUT) {
            made.answer[0] ^= DROPPED ^ WRITE_CUT;
        }
    }),
    ("a store too many where it is cut", |made| {
        cut_at(made, |allowance| allowance + 1);
    }),
    ("a store too few where it is cut", |made| {
        cut_at(made, |allowance| allowance.saturating_sub(1));
    }),
    ("nothing stored where it is cut", |made| cut_at(made, |_| 0)),
    ("goes on where it was cut", resume),
    ("a word that is there is not stored again", |made| {
        if made.ends(STORED) {
            made.answer[1] -= there(made);
        }
    }),
];

/// A drop that stores makes this of the index word.
fn flip(made: &mut Made, other: fn(u64) -> u64) {
    if made.ends(DROPPED) && made.answer[1] == 1 {
        made.after[0] = other(made.before[0]);
    }
}

/// WR becomes this, given the old index word and what it ought to become.
fn moved(made: &mut Made, other: fn(Index, u64) -> u64) {
    if made.ends(STORED) {
        let before = made.index();
        made.put(|after| Index {
            wr: other(before, after.wr),
            ..after
        });
    }
}

/// A record that is stored makes this of the index word.
fn stored(made: &mut Made, other: fn(Index) -> Index) {
    if made.ends(STORED) {
        made.put(other);
    }
}

/// The record's words go to the slot of another index.
fn written_to(made: &mut Made, other: fn(Index) -> u64) {
    if made.placed() {
        let index = made.index();
        let (right, wrong) = (index.place(index.wr), index.place(other(index)));
        let words: Vec<u64> = made.after[right..right + 4].to_vec();
        made.after[1..].copy_from_slice(&made.before[1..]);
        let count = made.answer[1].min(4) as usize;
        made.after[wrong..wrong + count].copy_from_slice(&words[..count]);
    }
}

/// What is done with a full ring, one record before it is full.
fn early(made: &mut Made) {
    let index = made.index();
    let allowance = made.allowance();
    made.after = made.before.to_vec();
    match (index.outstanding(), allowance) {
        (true, _) => made.tell(DROPPED, 0),
        (false, 0) => made.tell(WRITE_CUT, 0),
        _ => {
            made.tell(DROPPED, 1);
            made.after[0] ^= OVERFLOW;
        }
    }
}

/// The oldest record makes room.
fn overwrite(made: &mut Made) {
    if made.ends(DROPPED) {
        let (words, _) = made.asked(made.before, Call::EventRead);
        made.after = made.taken(&words).expect("a ring with room");
    }
}

/// So many stores as if that were the allowance, told as they ought to be.
fn cut_at(made: &mut Made, other: fn(u64) -> u64) {
    if let (true, Call::EventWrite { record, allowance }) = (cut(made), made.call) {
        let allowance = other(allowance);
        let call = Call::EventWrite { record, allowance };
        (made.after, _) = made.asked(made.before, call);
    }
}

fn words(record: &[u8; 32]) -> [u64; 4] {
    std::array::from_fn(|word| {
        let bytes = std::array::from_fn(|byte| record[8 * word + byte]);
        u64::from_le_bytes(bytes)
    })
}

/// How many of the record's first words are in the slot already.
fn there(made: &Made) -> u64 {
    let Some((record, _)) = made.written() else {
        return 0;
    };
    let slot = made.slot(made.index().wr);
    let both = slot.iter().zip(words(record));
    both.take_while(|(old, new)| *old == new).count() as u64
}

/// The words that are there count as stored by an earlier call.
fn resume(made: &mut Made) {
    let before = there(made);
    let Call::EventWrite { record, allowance } = made.call else {
        return;
    };
    if made.placed() && before > 0 {
        let allowance = allowance.saturating_add(before);
        let call = Call::EventWrite { record, allowance };
        let (after, reply) = made.asked(made.before, call);
        made.after = after;
        made.tell(reply.answer[0], reply.answer[1] - before);
    }
}
