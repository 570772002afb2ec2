//! Refusal 11 among the others, at every allowance, and between other calls.

use super::{first, second, ASID, EMPTY, PAGE, STREAM, SUBSTREAM, VMID, WRITE_BACK};
use crate::call::Call;
use crate::checker::Checker;
use crate::generate::commands::Command;
use crate::generate::images::with_rows;
use crate::generate::rows::{cd, ste, Words};
use crate::limits::UPPER;
use crate::phases::{bytes, run, waiting};

pub fn sweeps(checker: &mut Checker) {
    checker.phase("doubles: after every other refusal");
    for (words, _) in kinds() {
        order(checker, words);
    }
    checker.phase("doubles: at every allowance, and a cut fill again");
    for (words, _) in kinds() {
        for allowance in (0..=5).chain([u64::MAX]) {
            refused(checker, words, allowance);
            again(checker, words, allowance);
        }
    }
    checker.phase("doubles: filled once the old row is removed");
    for (words, command) in kinds() {
        removed(checker, words, command);
    }
}

/// A row of each kind, and the command that removes it.
fn kinds() -> [(Words, Command); 5] {
    let (stream, space) = (STREAM << 32, VMID << 32 | ASID << 48);
    let substream = SUBSTREAM << 12;
    let upper = PAGE | UPPER;
    let page = |page| first(12, page).page(PAGE, WRITE_BACK);
    [
        (ste(STREAM, VMID, 7, 0), (0x03 | stream, 1)),
        (cd(STREAM, SUBSTREAM, ASID), (0x05 | stream | substream, 1)),
        (page(PAGE), (0x12 | space, PAGE)),
        (page(upper), (0x12 | space, upper)),
        (
            second(12, PAGE).page(PAGE, WRITE_BACK),
            (0x2A | VMID << 32, PAGE),
        ),
    ]
}

fn fill(row: u64, words: Words, allowance: u64) -> Call<'static> {
    Call::Fill {
        row,
        words,
        allowance,
    }
}

/// Each of 1, 2, 3, 7, 8 and 9 with a row that would be doubled.
fn order(checker: &mut Checker, words: Words) {
    let control = waiting(0, 0);
    let kept = with_rows(control, &[words, EMPTY]);
    let [word, one, two, three] = words;
    let ill_formed = [
        [word, one | 1 << 63, two, three],
        [word | 1 << 11, one, two, three],
        [word, one, two, three | 1],
        [word, one, two | 1, three],
        [word & !1, one, two, three],
        [0, one, two, three],
    ];
    for words in ill_formed {
        checker.call(&mut kept.clone(), fill(1, words, 4));
    }
    for row in [0, 1, 2, 3, 1 << 32, u64::MAX] {
        checker.call(&mut kept.clone(), fill(row, words, 4));
    }
    let mut long = kept.clone();
    long.push(0);
    let mut bad = kept.clone();
    bad[0] |= 1 << 63;
    let mut third = kept.clone();
    third.extend([2, 0, 0, 0]);
    for mut kept in [long, bad, third] {
        for row in [0, 1, 5] {
            checker.call(&mut kept, fill(row, words, 4));
        }
    }
}

/// Doubled by a row above and below it, and by both, at any allowance.
fn refused(checker: &mut Checker, words: Words, allowance: u64) {
    for rows in [
        [words, EMPTY, EMPTY],
        [EMPTY, EMPTY, words],
        [words, EMPTY, words],
    ] {
        let mut kept = with_rows(waiting(0, 0), &rows);
        checker.call(&mut kept, fill(1, words, allowance));
        checker.call(&mut kept, fill(1, words, 4));
    }
}

const AGAIN: &str = "a cut fill called again isn't carried out, or a double is";

/// Words that a fill left in its own row, or that a removed row left in another,
/// double nothing. The row that was filled whole does.
fn again(checker: &mut Checker, words: Words, allowance: u64) {
    let [_, one, two, three] = words;
    let left = [0, one, two, three];
    for rows in [[EMPTY; 3], [left; 3]] {
        let mut kept = with_rows(waiting(0, 0), &rows);
        let reply = checker.call(&mut kept, fill(1, words, allowance));
        let whole = reply.answer[0] == 0;
        let next = if whole { 8 } else { 0 };
        for (row, due) in [(1, next), (1, 8), (0, 11), (2, 11)] {
            let before = kept.clone();
            let call = fill(row, words, 4);
            let reply = checker.call(&mut kept, call);
            let met = reply.number == due;
            checker.insist(met, AGAIN, &before, call, (reply, &kept));
        }
    }
}

/// Refused until the command for the old row is consumed.
fn removed(checker: &mut Checker, words: Words, command: Command) {
    let queue = bytes(&[command]);
    let mut kept = with_rows(waiting(0, 1), &[words, EMPTY]);
    for call in [
        fill(1, words, 4),
        run(&queue, 0b1111, 0),
        fill(1, words, 4),
        run(&queue, 0b1111, 1),
        fill(1, words, 2),
        run(&queue, 0b1111, 1),
        fill(1, words, 4),
        fill(0, words, 4),
        Call::State,
    ] {
        checker.call(&mut kept, call);
    }
}
