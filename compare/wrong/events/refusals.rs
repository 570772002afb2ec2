//! Recorders that are refused, or not, or for another reason.

use super::{Fault, Made};
use crate::call::{EVENT_CALLS, FIRST_EVENT, NAMES};
use crate::limits::{event_words, EVENTS};
use crate::model::events::Index;

/// Those that are of one call, one bit or two refusals.
pub fn all() -> Vec<(String, Fault)> {
    let mut all = Vec::new();
    for call in EVENT_CALLS {
        let name = NAMES[call];
        all.push((format!("{name}: bit 47 accepted"), Fault::Unread(call, 47)));
    }
    for bit in 48..64 {
        let fault = Fault::Unread(FIRST_EVENT, bit);
        all.push((format!("{}: bit {bit} accepted", NAMES[FIRST_EVENT]), fault));
    }
    for (later, due) in [(16, 15), (17, 15), (17, 16), (18, 15), (18, 16)] {
        let fault = Fault::Before(later, due);
        all.push((format!("events: {later} before {due}"), fault));
    }
    all
}

pub const MADE: &[(&str, fn(&mut Made))] = &[
    ("n of the word, not of the length", shorter),
    ("n of the word not looked at", |made| {
        let n = (0..=EVENTS).find(|&n| event_words(n) == made.before.len());
        exchanged(made, |index| Index {
            n: n.unwrap_or(index.n),
            ..index
        });
    }),
    ("RD out of range accepted", |made| {
        exchanged(made, |index| Index {
            rd: index.rd % index.ring(),
            ..index
        });
    }),
    ("WR out of range accepted", |made| {
        exchanged(made, |index| Index {
            wr: index.wr % index.ring(),
            ..index
        });
    }),
    ("a distance above full accepted", |made| {
        exchanged(made, |index| Index {
            wr: (index.rd + index.slots()) % index.ring(),
            ..index
        });
    }),
    ("n 8 accepted", |made| {
        if made.number == 15 && made.before.len() == event_words(EVENTS + 1) {
            let mut words = made.before[..event_words(EVENTS)].to_vec();
            let index = Index {
                n: EVENTS,
                ..made.index()
            };
            words[0] = index.pack() | above(words[0]);
            put_back(made, &words);
        }
    }),
    ("n 7 refused", |made| sized(made, EVENTS)),
    ("n 0 refused", |made| sized(made, 0)),
    ("a word more accepted", |made| {
        if made.number == 15 && !made.before.is_empty() {
            let words = made.before[..made.before.len() - 1].to_vec();
            put_back(made, &words);
        }
    }),
    ("a word less accepted", |made| {
        if made.number == 15 && made.before.len() > 1 {
            let words = [made.before, &[0]].concat();
            put_back(made, &words);
        }
    }),
    ("three slots accepted", |made| {
        if made.number == 15 && made.before.len() == 13 {
            let words = made.before[..event_words(1)].to_vec();
            put_back(made, &words);
        }
    }),
    ("a length between two accepted", |made| {
        let length = made.before.len();
        let below = (0..=EVENTS).rev().find(|&n| event_words(n) < length);
        if let (15, Some(n)) = (made.number, below) {
            let words = made.before[..event_words(n)].to_vec();
            put_back(made, &words);
        }
    }),
    ("a length of 16 bits", |made| {
        let words = made.before[..made.before.len() % (1 << 16)].to_vec();
        if made.number == 15 && words.len() != made.before.len() {
            put_back(made, &words);
        }
    }),
    ("15 and 16 exchanged", |made| {
        if matches!(made.number, 15 | 16) {
            made.number = 31 - made.number;
        }
    }),
    ("16 tells n", |made| {
        if made.number == 16 {
            made.answer[0] = made.index().n;
        }
    }),
    ("15 tells the length", |made| {
        if made.number == 15 {
            made.answer[0] = made.before.len() as u64;
        }
    }),
    ("16 mends the word", |made| {
        if made.number == 16 {
            made.after[0] = made.before[0] & ((1 << 47) - 1);
        }
    }),
];

/// The words as they are taken; what is left there comes back, but for the index
/// word if it was taken for another.
fn put_back(made: &mut Made, words: &[u64]) {
    let Some(after) = made.taken(words) else {
        return;
    };
    let length = after.len().min(made.before.len());
    made.after[..length].copy_from_slice(&after[..length]);
    if made.before[0] != words[0] {
        made.after[0] ^= made.before[0] ^ words[0];
    }
}

/// The slots that the word's own n asks for, if the recorder has them.
fn shorter(made: &mut Made) {
    if made.number == 16 {
        let n = made.index().n;
        if n <= EVENTS && event_words(n) <= made.before.len() {
            let words = made.before[..event_words(n)].to_vec();
            put_back(made, &words);
        }
    }
}

/// The index word is taken for another, if it is refused.
fn exchanged(made: &mut Made, other: impl Fn(Index) -> Index) {
    if made.number == 16 {
        let mut words = made.before.to_vec();
        words[0] = other(made.index()).pack() | above(words[0]);
        put_back(made, &words);
    }
}

/// The bits above n.
fn above(word: u64) -> u64 {
    word >> 47 << 47
}

fn sized(made: &mut Made, n: u64) {
    if made.before.len() == event_words(n) && made.number == 0 {
        made.refuse(15);
    }
}
