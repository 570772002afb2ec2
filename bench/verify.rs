//! Every side once on each input, before anything is timed.

use crate::call::Reply;
use crate::cases::{Case, Lent, Per, Work};
use crate::sides::{Side, MODEL, PLAIN, UNIT};

/// What the calls of a case did together.
#[derive(Default)]
pub struct Totals {
    pub consumed: u64,
    pub removed: u64,
    /// Whether a call stored to what it was lent, so that this has to be restored.
    pub stored: bool,
}

/// What a side answers to a call, and every word that it leaves.
fn made(side: &Side, case: &Case, call: usize) -> (Reply, Lent) {
    let mut lent = case.lent.clone();
    let reply = side.call(case, call, &mut lent);
    (reply, lent)
}

/// The totals, if all sides answered the same, left the same memory, and did
/// what the case is there to measure.
pub fn same(case: &Case) -> Result<Totals, String> {
    let mut totals = Totals::default();
    let checks = matches!(case.work, Work::Check { .. });
    for call in 0..case.calls() {
        let (unit, left) = made(&UNIT, case, call);
        for (name, side) in [("model", &MODEL), ("plain", &PLAIN)] {
            let (other, theirs) = made(side, case, call);
            if unit != other || left != theirs {
                return Err(format!(
                    "call {call} differs: unit {unit:x?}, {name} {other:x?}"
                ));
            }
        }
        let answer = unit.answer;
        if unit.number != 0 || answer[0] != case.end {
            return Err(format!("call {call} ends otherwise: {unit:x?}"));
        }
        totals.stored |= left != case.lent;
        if case.per == Per::Command && !checks {
            totals.consumed += answer[1];
            totals.removed += answer[3];
        }
    }
    if case.per == Per::Command && !checks && totals.consumed != case.parts() {
        return Err(format!("consumed {} commands", totals.consumed));
    }
    if case.removes.is_some_and(|rows| rows != totals.removed) {
        return Err(format!("removed {} rows", totals.removed));
    }
    Ok(totals)
}
