//! Rows at the edges, within and without, as rows of a memory and as words to be
//! filled in.

use super::{any_half, first, inside, second, waiting, ENDS};
use crate::call::Call;
use crate::checker::Checker;
use crate::generate::images::with_rows;
use crate::generate::rows::Words;
use crate::limits::{ADDRESS, SPANS, UPPER};
use crate::phases::bytes;
use crate::phases::limits::every_call;

const EMPTY: Words = [0; 4];

pub fn sweeps(checker: &mut Checker) {
    checker.phase("upper half: rows of every span at the edges");
    for span in SPANS {
        for address in inside(span).into_iter().chain(outside(span)) {
            for form in forms(span, address) {
                formed(checker, form, span, address);
            }
        }
    }
    checker.phase("upper half: the edges by every call");
    for span in ENDS.into_iter().chain([30]) {
        for address in inside(span).into_iter().chain(outside(span)) {
            for (words, _) in forms(span, address) {
                called(checker, words);
            }
        }
    }
    checker.phase("upper half: every value of bits 63:52, and every bit below them");
    for span in ENDS {
        for address in any_half(ADDRESS - (1 << span)) {
            for form in forms(span, address) {
                formed(checker, form, span, address);
            }
        }
    }
    for (span, bit) in SPANS.flat_map(|span| (0..64).map(move |bit| (span, bit))) {
        let top = (1u64 << span).wrapping_neg();
        for address in [UPPER ^ 1 << bit, top ^ 1 << bit] {
            for form in forms(span, address) {
                formed(checker, form, span, address);
            }
        }
    }
}

/// Addresses next to a half, between the halves, and those of both that are no
/// multiples of the size.
pub fn outside(span: u64) -> [u64; 14] {
    let size = 1u64 << span;
    let top = size.wrapping_neg();
    [
        ADDRESS,
        ADDRESS + size,
        UPPER - size,
        UPPER - 2 * size,
        1 << 63,
        (1 << 63) - size,
        1,
        size / 2,
        ADDRESS - size / 2,
        ADDRESS - 1,
        UPPER + 1,
        UPPER + size / 2,
        top + size / 2,
        u64::MAX,
    ]
}

/// The words, and whether the address may be in the upper half.
pub type Form = (Words, bool);

/// The address as the input of each stage, last-level or not, and as the output.
fn forms(span: u64, address: u64) -> [Form; 6] {
    let (one, two) = (first(span, 0), second(span, 0));
    let input = |[word, zero, _, output]: Words| [word, zero, address, output];
    let output = |[word, zero, input, _]: Words| [word, zero, input, address];
    [
        (input(one.page(0, 0)), true),
        (input(one.table()), true),
        (input(two.page(0, 0)), false),
        (input(two.table()), false),
        (output(one.page(0, 0)), false),
        (output(two.page(0, 0)), false),
    ]
}

/// What T-04 says, with ends that have room for 2^64.
fn allowed(span: u64, address: u64, upper: bool) -> bool {
    let end = u128::from(address) + (1 << span);
    let aligned = end.trailing_zeros() as u64 >= span;
    let below = end <= 1 << 52;
    let above = u128::from(address) >= (1 << 64) - (1 << 52) && end <= 1 << 64;
    aligned && (below || upper && above)
}

const LAW: &str = "a row isn't accepted as T-04 has it";

/// Filled in and as a row; refused with 9 and with 3, or not.
pub fn formed(checker: &mut Checker, (words, upper): Form, span: u64, address: u64) {
    let fill = Call::Fill {
        row: 1,
        words,
        allowance: 4,
    };
    let right = allowed(span, address, upper);
    let empty = with_rows(waiting(0, 0), &[EMPTY; 2]);
    let whole = with_rows(waiting(0, 0), &[EMPTY, words]);
    for (before, call, number) in [(empty, fill, 9), (whole, Call::State, 3)] {
        let mut kept = before.clone();
        let reply = checker.call(&mut kept, call);
        let met = reply.number == if right { 0 } else { number };
        checker.insist(met, LAW, &before, call, (reply, &kept));
    }
}

/// The row behind an empty one that is there to be filled. An error is active and
/// an interrupt pending, so that no call has another reason to refuse.
pub fn called(checker: &mut Checker, words: Words) {
    let mut control = waiting(0, 1);
    control.err = 1;
    control.gerror = true;
    control.pending = true;
    let kept = with_rows(control, &[EMPTY, words]);
    every_call(checker, &kept, &bytes(&[(0x46, 0)]));
}
