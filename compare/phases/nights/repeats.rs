//! What a finished call does when it is made again (document 02, T-14).

use super::{allowing, Words, REPEATED};
use crate::call::{Call, Reply, DROPPED, HELD, RAISED, STORED};
use crate::checker::Checker;
use crate::generate::random::Random;
use crate::model::events::Index;

/// The number and the answer that are due, and the words after the call.
type Due = (Reply, Words);

/// Makes a finished call again on a copy of what it left, with any allowance where none
/// matters.
pub fn repeat(
    checker: &mut Checker,
    random: &mut Random,
    (call, first): (Call, Reply),
    words: &mut Words,
) {
    let stores = matches!(call, Call::EventWrite { .. }) && first.answer[0] == STORED;
    let any = random.pick(&[0, 1, 5, u64::MAX]);
    let again = allowing(call, if stores { u64::MAX } else { any });
    let mut copy = words.clone();
    let reply = copy.call(checker, again);
    let (due, left) = due(&call, first, words);
    let met = reply == due && copy == left;
    words.insist(checker, met, REPEATED, (again, reply));
    checker.tally.nights.count_repeat(&call, &first, &reply);
}

/// The answer that a refusal has, or a call that tells nothing.
fn plain(number: u64) -> Reply {
    let answer = [0; 8];
    Reply { number, answer }
}

/// Told by its first words.
fn told(end: u64, stores: u64) -> Reply {
    let answer = [end, stores, 0, 0, 0, 0, 0, 0];
    Reply { number: 0, answer }
}

/// What a call that was answered so has to do if it is made again at once.
fn due(call: &Call, first: Reply, words: &Words) -> Due {
    let same = |reply| (reply, words.clone());
    match call {
        _ if first.number != 0 => same(first),
        Call::Run { .. } if first.answer[0] == RAISED => same(told(HELD, 0)),
        Call::Run { .. } => same(told(first.answer[0], 0)),
        Call::Fill { .. } | Call::TableFill { .. } => same(plain(8)),
        Call::Acknowledge => same(plain(6)),
        Call::ClearPending => same(plain(12)),
        Call::EventAcknowledge => same(plain(18)),
        Call::EventWrite { .. } if first.answer[0] == DROPPED => same(told(DROPPED, 0)),
        Call::EventWrite { record, .. } => written(record, words),
        Call::EventRead => read(words),
        _ => same(first),
    }
}

/// Stored once more, or dropped if the ring is full now.
fn written(record: &[u8; 32], words: &Words) -> Due {
    let mut left = words.clone();
    let index = Index::fields(words.events[0]);
    if index.full() {
        let overflow = index.overflow != !index.outstanding();
        left.events[0] = Index { overflow, ..index }.pack();
        return (told(DROPPED, u64::from(!index.outstanding())), left);
    }
    let place = index.place(index.wr);
    for (word, bytes) in left.events[place..].iter_mut().zip(record.chunks_exact(8)) {
        *word = u64::from_le_bytes(bytes.try_into().expect("eight bytes"));
    }
    let wr = (index.wr + 1) % index.ring();
    left.events[0] = Index { wr, ..index }.pack();
    (told(STORED, 5), left)
}

/// The next record, or 17.
fn read(words: &Words) -> Due {
    let mut left = words.clone();
    let index = Index::fields(words.events[0]);
    if index.held() == 0 {
        return (plain(17), left);
    }
    let place = index.place(index.rd);
    let mut reply = plain(0);
    reply.answer[..4].copy_from_slice(&words.events[place..place + 4]);
    let rd = (index.rd + 1) % index.ring();
    left.events[0] = Index { rd, ..index }.pack();
    (reply, left)
}
