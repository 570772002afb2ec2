//! Document 02's sentences about the recorder, with the words that they leave;
//! they hold the model to the paper as well as the unit.

use super::write;
use crate::call::Call;
use crate::checker::Checker;

/// The bytes 0 to 31, and the words that they are.
const RECORD: [u8; 32] = [
    0x00, 0x01, 0x02, 0x03, 0x04, 0x05, 0x06, 0x07, 0x08, 0x09, 0x0A, 0x0B, 0x0C, 0x0D, 0x0E, 0x0F,
    0x10, 0x11, 0x12, 0x13, 0x14, 0x15, 0x16, 0x17, 0x18, 0x19, 0x1A, 0x1B, 0x1C, 0x1D, 0x1E, 0x1F,
];
const WORDS: [u64; 4] = [
    0x0706_0504_0302_0100,
    0x0F0E_0D0C_0B0A_0908,
    0x1716_1514_1312_1110,
    0x1F1E_1D1C_1B1A_1918,
];
const OLD: [u64; 4] = [0xA0, 0xA1, 0xA2, 0xA3];

/// The flags: an overflow, and its acknowledgement.
const OVERFLOW: u64 = 1 << 40;
const SEEN: u64 = 1 << 41;
/// A ring of one slot that is empty, full, read out, and full again.
const EMPTY: u64 = 0;
const FULL: u64 = 0x10_0000;
const READ: u64 = 0x10_0001;
const AGAIN: u64 = 1;

pub fn cases(checker: &mut Checker) {
    checker.phase("document 02's recorder");
    stored(checker);
    dropped(checker);
    read(checker);
    places(checker);
    refused(checker);
    alone(checker);
}

/// One call: its number, the first words of its answer, and the words after it.
fn leaves(checker: &mut Checker, before: &[u64], call: Call, told: (u64, &[u64]), after: &[u64]) {
    let mut events = before.to_vec();
    let reply = checker.call(&mut events, call);
    let (number, words) = told;
    let rest = &reply.answer[words.len()..];
    let same = reply.answer.starts_with(words) && rest.iter().all(|&word| word == 0);
    let met = reply.number == number && same && events == after;
    let law = "a case of document 02 isn't met";
    checker.insist(met, law, before, call, (reply, &events));
}

/// A ring of one slot.
fn one(word: u64, slot: [u64; 4]) -> Vec<u64> {
    [&[word], &slot[..]].concat()
}

/// The record's words, then the index word, from the first word on in every
/// call; a cut leaves the index word, so the old records.
fn stored(checker: &mut Checker) {
    for flags in [0, OVERFLOW, SEEN, OVERFLOW | SEEN] {
        for (before, after) in [(EMPTY | flags, FULL | flags), (READ | flags, AGAIN | flags)] {
            let whole = one(after, WORDS);
            let start = one(before, OLD);
            for cut in 0..5 {
                let part = std::array::from_fn(|at| if at < cut { WORDS[at] } else { OLD[at] });
                let part = one(before, part);
                let (call, told) = (write(&RECORD, cut as u64), [2, cut as u64]);
                leaves(checker, &start, call, (0, &told), &part);
                leaves(checker, &part, call, (0, &told), &part);
                leaves(checker, &part, write(&RECORD, 5), (0, &[0, 5]), &whole);
            }
            for enough in [5, 6, 1 << 32, u64::MAX] {
                let call = write(&RECORD, enough);
                leaves(checker, &start, call, (0, &[0, 5]), &whole);
            }
        }
    }
}

/// A full ring: the flag flips unless an overflow is outstanding, and then nothing
/// is stored, whatever is allowed.
fn dropped(checker: &mut Checker) {
    for (flags, flipped) in [(0, OVERFLOW), (OVERFLOW | SEEN, SEEN)] {
        for word in [FULL, AGAIN] {
            let (before, after) = (one(word | flags, OLD), one(word | flipped, OLD));
            leaves(checker, &before, write(&RECORD, 0), (0, &[2, 0]), &before);
            for allowance in [1, 4, 5, u64::MAX] {
                let call = write(&RECORD, allowance);
                leaves(checker, &before, call, (0, &[1, 1]), &after);
                leaves(checker, &after, call, (0, &[1, 0]), &after);
            }
            leaves(checker, &after, write(&RECORD, 0), (0, &[1, 0]), &after);
            let seen = one(word | flipped ^ SEEN, OLD);
            let call = Call::EventAcknowledge;
            leaves(checker, &after, call, (0, &[]), &seen);
            leaves(checker, &seen, call, (18, &[]), &seen);
        }
    }
}

/// The oldest first; once it is read, its slot takes another. Two slots, both in use.
fn read(checker: &mut Checker) {
    let n = 1 << 42;
    let mut events = [&[n | 0x20_0000], &OLD[..], &WORDS[..]].concat();
    for (call, number, told, index) in [
        (Call::EventRead, 0, &OLD[..], 0x20_0001),
        (write(&RECORD, 5), 0, &[0, 5], 0x30_0001),
        (Call::EventRead, 0, &WORDS, 0x30_0002),
        (Call::EventRead, 0, &WORDS, 0x30_0003),
        (Call::EventRead, 17, &[], 0x30_0003),
        (write(&RECORD, 5), 0, &[0, 5], 0x00_0003),
        (Call::EventRead, 0, &WORDS, 0x00_0000),
    ] {
        let mut after = events.clone();
        after[0] = n | index;
        if index == 0x30_0001 {
            after[1..5].copy_from_slice(&WORDS);
        }
        leaves(checker, &events, call, (number, told), &after);
        events = after;
    }
    for flags in [0, OVERFLOW, SEEN] {
        let (before, after) = (one(FULL | flags, OLD), one(READ | flags, OLD));
        leaves(checker, &before, Call::EventRead, (0, &OLD), &after);
        leaves(checker, &after, Call::EventRead, (17, &[]), &after);
    }
}

/// The largest ring at its last index: slot 127, and WR becomes 0.
fn places(checker: &mut Checker) {
    let word = 7 << 42;
    let mut events = vec![0; 513];
    events[0] = word | 0xFF << 20 | 0xFE;
    let mut after = events.clone();
    after[0] = word | 0xFE;
    after[509..].copy_from_slice(&WORDS);
    leaves(checker, &events, write(&RECORD, 5), (0, &[0, 5]), &after);
    let mut last = after.clone();
    last[0] = word | 0xFF;
    leaves(checker, &after, Call::EventRead, (0, &[]), &last);
    let mut none = last.clone();
    none[0] = word;
    leaves(checker, &last, Call::EventRead, (0, &WORDS), &none);
}

/// Lengths and index words that are refused by all three calls, whatever else is
/// wrong: these rings are empty and no overflow is outstanding.
fn refused(checker: &mut Checker) {
    for length in [0, 1, 4, 6, 8, 10, 13, 16, 21, 512, 514, 1025] {
        every_refused(checker, &vec![0; length], 15);
        every_refused(checker, &vec![1 << 63; length], 15);
    }
    let mut nine = vec![8 << 42; 1025];
    every_refused(checker, &nine, 15);
    nine.truncate(513);
    every_refused(checker, &nine, 16);
    for (length, n) in [(5, 1), (9, 0), (9, 2), (513, 6), (513, 8), (5, 16)] {
        let mut events = vec![0; length];
        events[0] = n << 42;
        every_refused(checker, &events, 16);
    }
    for bit in 47..64 {
        every_refused(checker, &one(1 << bit, OLD), 16);
    }
    for word in [2, 0x20_0000, 0x20_0002, 0x8_0000, 0x80_0000_0000] {
        every_refused(checker, &one(word, OLD), 16);
    }
    for word in [0x00_0001, 0x30_0000, 0x10_0002, 0x20_0003, 4, 0x40_0000] {
        let ring = [&[1 << 42 | word], &OLD[..], &WORDS[..]].concat();
        every_refused(checker, &ring, 16);
    }
}

fn every_refused(checker: &mut Checker, events: &[u64], number: u64) {
    for call in [
        write(&RECORD, 0),
        write(&RECORD, 5),
        Call::EventRead,
        Call::EventAcknowledge,
    ] {
        leaves(checker, events, call, (number, &[]), events);
    }
}

/// 17 and 18 are of one call each, and a flag or a record is nothing to the other.
fn alone(checker: &mut Checker) {
    for (word, read, acknowledge) in [
        (EMPTY, 17, 18),
        (READ, 17, 18),
        (EMPTY | OVERFLOW, 17, 0),
        (READ | SEEN, 17, 0),
        (FULL, 0, 18),
        (AGAIN | OVERFLOW | SEEN, 0, 18),
    ] {
        let events = one(word, OLD);
        if read == 17 {
            leaves(checker, &events, Call::EventRead, (17, &[]), &events);
        } else {
            let next = one(word ^ 1, OLD);
            leaves(checker, &events, Call::EventRead, (0, &OLD), &next);
        }
        let flip = if acknowledge == 0 { SEEN } else { 0 };
        let next = one(word ^ flip, OLD);
        let told = (acknowledge, &[][..]);
        leaves(checker, &events, Call::EventAcknowledge, told, &next);
    }
}
