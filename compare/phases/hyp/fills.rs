//! Fills of marked rows and beside them: refusal 11 is not about them.

use super::forms::own;
use super::{first, waiting, PAGE, WRITE_BACK};
use crate::call::Call;
use crate::checker::Checker;
use crate::generate::images::with_rows;
use crate::generate::rows::{Reach, Words, STAGE2};
use crate::limits::UPPER;
use crate::phases::doubles::fill;

const EMPTY: Words = [0; 4];

pub fn sweeps(checker: &mut Checker) {
    checker.phase("hypervisor: every two of marked rows and guests' rows");
    let rows = rows();
    for (&old, &new) in rows
        .iter()
        .flat_map(|old| rows.iter().map(move |new| (old, new)))
    {
        fill(checker, &[old, EMPTY], 1, new);
        fill(checker, &[EMPTY, old], 0, new);
    }
    checker.phase("hypervisor: a guest's double beside marked rows");
    for new in guests(12, PAGE) {
        let ours = [own(12, PAGE), vec![EMPTY]].concat();
        fill(checker, &ours, ours.len() - 1, new);
        let with = [ours.as_slice(), &[new]].concat();
        fill(checker, &with, ours.len() - 1, new);
    }
    checker.phase("hypervisor: marked rows filled at every allowance");
    for words in own(12, PAGE) {
        for allowance in (0..=5).chain([u64::MAX]) {
            filled(checker, words, allowance);
        }
    }
}

/// Guests' rows at a page, of VMID 0, global and not, of either level; stage 2.
fn guests(span: u64, page: u64) -> Vec<Words> {
    let mut rows = Vec::new();
    for global in [false, true] {
        let reach = Reach {
            global,
            ..first(span, page)
        };
        rows.extend([reach.page(PAGE, WRITE_BACK), reach.table()]);
    }
    rows
}

fn rows() -> Vec<Words> {
    let mut rows = Vec::new();
    for (span, page) in [(12, PAGE), (21, PAGE), (12, PAGE | UPPER)] {
        rows.extend(own(span, page).into_iter().step_by(2));
        rows.extend(guests(span, page));
    }
    let second = Reach {
        kind: STAGE2,
        ..first(12, PAGE)
    };
    rows.push(second.page(PAGE, WRITE_BACK));
    rows
}

const LAW: &str = "a marked row isn't filled beside its equal";

/// Beside the same row, into words that a cut fill left; then again.
fn filled(checker: &mut Checker, words: Words, allowance: u64) {
    let mut kept = with_rows(waiting(0, 0), &[words, EMPTY, words]);
    let whole = allowance >= 4;
    for (allowance, number) in [(allowance, 0), (4, if whole { 8 } else { 0 }), (4, 8)] {
        let before = kept.clone();
        let call = Call::Fill {
            row: 1,
            words,
            allowance,
        };
        let reply = checker.call(&mut kept, call);
        let met = reply.number == number;
        checker.insist(met, LAW, &before, call, (reply, &kept));
    }
}
