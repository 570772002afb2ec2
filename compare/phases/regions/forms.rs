//! Rows that are well formed and rows that aren't, in a table and as words to be filled
//! in; and lengths of the table.

use super::rule::formed;
use super::{bytes, fill, run, size, waiting, ALL, MIDDLE, ROW_CODES};
use crate::call::{Call, Reply};
use crate::checker::Checker;
use crate::generate::images::with_rows;
use crate::generate::regions::{region, with_regions, Pair, SIZES};
use crate::limits::{table_words, ADDRESS, REGIONS};

pub fn sweeps(checker: &mut Checker) {
    checker.phase("regions: every bit of a row");
    for code in 0..ROW_CODES {
        for last in [true, false] {
            for place in [0, MIDDLE, ADDRESS - size(code)] {
                each_bit(checker, region(code, last, place));
            }
        }
    }
    checker.phase("regions: every word 0 below 256, and two bits of it");
    for word in 0..256 {
        for base in [0, MIDDLE, 0x1000, 0x1_0000, 1, ADDRESS, u64::MAX] {
            either(checker, [word, base]);
        }
    }
    for bit in 0..64 {
        for other in 0..64 {
            either(checker, [1 << bit | 1 << other, 0]);
        }
    }
    checker.phase("regions: bases at the edges");
    for code in 0..ROW_CODES {
        bases(checker, code);
    }
    checker.phase("regions: empty rows with any base");
    for bit in 0..64 {
        for base in [1 << bit, !(1 << bit), u64::MAX >> bit] {
            either(checker, [0, base]);
        }
    }
    checker.phase("regions: lengths of the second table");
    lengths(checker);
}

fn each_bit(checker: &mut Checker, [word, base]: Pair) {
    either(checker, [word, base]);
    for bit in 0..64 {
        either(checker, [word ^ 1 << bit, base]);
        either(checker, [word, base ^ 1 << bit]);
    }
}

/// Around both ends of the space, and off the size by every bit below it.
fn bases(checker: &mut Checker, code: u64) {
    let (size, word) = (size(code), 1 | code << 2);
    let first = [0, 1, size / 2, size - 1, size, size + 1, size + 0x1000];
    let last = [size, size / 2, 1, 0].map(|before| ADDRESS - before);
    let beyond = [size, 1 << 52, 1 << 63].map(|more| ADDRESS.wrapping_add(more));
    let off = (0..SIZES[code as usize]).map(|bit| MIDDLE | 1 << bit);
    let wrapped = [size.wrapping_neg(), u64::MAX];
    let all = first.into_iter().chain(last).chain(beyond);
    for base in all.chain(off).chain(wrapped) {
        either(checker, [word, base]);
        either(checker, [word | 2, base]);
    }
}

const LAW: &str = "a row isn't well formed as T-11 has it";

/// The words as a row of a table, between others, by a run, a check and a fill, and as
/// those of a fill. Row 1 is the one that 14 names; a table that is accepted has no row 3.
fn either(checker: &mut Checker, words: Pair) {
    let good = words[0] == 0 || formed(words);
    let rows = [region(0, true, MIDDLE), words, region(3, false, 0)];
    let table = with_regions(&rows);
    let queue = bytes(&[(0x46, 0)]);
    let run = run(&queue, ALL, u64::MAX);
    called(checker, &table, run, |reply| match good {
        true => reply.number == 0,
        false => (reply.number, reply.answer[0]) == (14, 1),
    });
    called(checker, &table, check(&queue[..0]), |reply| match good {
        true => reply.number == 0,
        false => (reply.number, reply.answer[0]) == (14, 1),
    });
    called(checker, &table, fill(3, words, 2), |reply| match good {
        true => reply.number == 7,
        false => (reply.number, reply.answer[0]) == (14, 1),
    });
    let room = [region(0, true, MIDDLE), [0, words[1] ^ 1], [0, 0]];
    let number = if formed(words) { 0 } else { 9 };
    called(checker, &with_regions(&room), fill(1, words, 2), |reply| {
        reply.number == number
    });
}

/// A check of the batch beside itself.
fn check(batch: &[u8]) -> Call<'_> {
    Call::CheckBatch {
        original: batch,
        proposed: batch,
        features: ALL,
    }
}

/// A call on a plain memory beside the table, whose reply has to be right.
fn called(checker: &mut Checker, table: &[u64], call: Call, right: impl Fn(Reply) -> bool) {
    let before = with_rows(waiting(0, 1), &[[0; 4]]);
    let mut kept = before.clone();
    let reply = checker.both(&mut kept, &mut table.to_vec(), call);
    checker.insist(right(reply), LAW, &before, call, (reply, &kept));
}

/// What a length of 16 or 20 bits would lose.
const LOST: [usize; 2] = [1 << 16, 1 << 20];

/// Every length around the limits, and those that a short length would take for them,
/// with empty rows and with ones that are ill formed: 13 comes before 14.
fn lengths(checker: &mut Checker) {
    let most = table_words(REGIONS);
    let near = (0..=most + 8).chain([2 * most - 1, 2 * most, 2 * most + 1]);
    let lost = LOST
        .into_iter()
        .flat_map(|lost| [lost, lost + 2, lost + most]);
    let (queue, batch) = (bytes(&[(0x46, 0)]), bytes(&[(0x70, 0)]));
    for length in near.chain(lost) {
        let good = length % 2 == 0 && (2..=most).contains(&length);
        for word in [0, 2] {
            let table = vec![word; length];
            let number = match (good, word) {
                (false, _) => 13,
                (true, 0) => 0,
                (true, _) => 14,
            };
            let run = run(&queue, ALL, u64::MAX);
            called(checker, &table, run, |reply| reply.number == number);
            let check = check(&batch);
            called(checker, &table, check, |reply| reply.number == number);
            let words = region(0, true, MIDDLE);
            called(checker, &table, fill(0, words, 2), |reply| {
                reply.number == number
            });
            called(
                checker,
                &table,
                fill(length as u64 / 2, words, 2),
                |reply| reply.number == if number == 0 { 7 } else { number },
            );
        }
    }
}
