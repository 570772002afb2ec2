//! What document 02, T-05 says of any run or fill, over bits alone.

use crate::call::{Call, Reply, CUT};
use crate::model::control::Control;
use crate::model::image::{place, rows};

const S1P: u64 = 1;
const HYP: u64 = 1 << 4;
const E2H: u64 = 1 << 7;

/// Bits 12:11 of a row's word 0.
fn mark(word: u64) -> u64 {
    word >> 11 & 3
}

/// A fill that is refused with 11, of a marked row or where nothing else is.
pub fn refused(before: &[u64], call: Call, reply: Reply) -> Option<&'static str> {
    let Call::Fill { words, .. } = call else {
        return None;
    };
    let unmarked = |word: u64| word != 0 && mark(word) == 0;
    let guest = rows(before).any(|row| unmarked(row.0[0]));
    let right = unmarked(words[0]) && guest;
    (reply.number == 11 && !right).then_some("11 is about a marked row")
}

/// The codes of the commands that a run consumed, and of the one that it began.
fn codes(before: &[u64], queue: &[u8], reply: Reply) -> Vec<u8> {
    let control = Control::fields(before[0]);
    let [end, consumed, ..] = reply.answer;
    let begun = consumed + u64::from(end == CUT);
    (control.rd..control.rd + begun)
        .map(|index| queue[16 * (index % control.slots()) as usize])
        .collect()
}

/// Which rows a run took: those without a mark, EL2 rows and EL2-E2H rows.
fn gone(before: &[u64], after: &[u64]) -> [bool; 4] {
    let mut gone = [false; 4];
    for (number, row) in rows(before).enumerate() {
        gone[mark(row.0[0]) as usize] |= row.used() && after[place(number)] == 0;
    }
    gone
}

/// Marked rows go by 20 to 23 alone, and others never do; EL2 rows and EL2-E2H rows
/// as E2H is set, but for 20, and for 21 that is about the latter.
pub fn run(
    before: &[u64],
    (queue, features): (&[u8], u64),
    reply: Reply,
    after: &[u64],
) -> Option<&'static str> {
    let [guest, el2, el2_e2h, _] = gone(before, after);
    let owned = el2 || el2_e2h;
    if !guest && !owned {
        return None;
    }
    let codes = codes(before, queue, reply);
    let any = |asked: &[u8]| codes.iter().any(|code| asked.contains(code));
    let others = codes.iter().any(|code| !(0x20..=0x23).contains(code));
    let (for_el2, for_el2_e2h): (&[u8], &[u8]) = match features & E2H {
        0 => (&[0x20, 0x22, 0x23], &[0x20, 0x21]),
        _ => (&[0x20], &[0x20, 0x21, 0x22, 0x23]),
    };
    let laws = [
        (
            owned && features & HYP == 0,
            "a marked row goes without Hyp",
        ),
        (
            owned && features & S1P == 0,
            "a marked row goes without S1P",
        ),
        (guest && !others, "a row without a mark goes by 20 to 23"),
        (el2 && !any(for_el2), EL2_GOES),
        (el2_e2h && !any(for_el2_e2h), EL2_E2H_GOES),
        (
            codes.len() == 1 && owned && guest,
            "one command takes marked rows and others",
        ),
    ];
    laws.into_iter()
        .find_map(|(broken, law)| broken.then_some(law))
}

const EL2_GOES: &str = "an EL2 row goes by another command, or at another E2H";
const EL2_E2H_GOES: &str = "an EL2-E2H row goes by another command, or at another E2H";
