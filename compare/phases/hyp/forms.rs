//! Marks on every form of row, as a row of a memory and as words to be filled in.

use super::{first, waiting, ASID, PAGE, WRITE_BACK};
use crate::call::Call;
use crate::checker::Checker;
use crate::generate::images::with_rows;
use crate::generate::rows::{cd, cd_table, marked, ste, ste_block, Reach, Words};
use crate::generate::rows::{EL2, EL2_E2H, MARKS, STAGE2};
use crate::limits::SPANS;
use crate::phases::upper::forms::{called, formed, outside};
use crate::phases::upper::inside;

const EMPTY: Words = [0; 4];

pub fn sweeps(checker: &mut Checker) {
    checker.phase("hypervisor: marks with every kind, level, VMID, ASID and global");
    for form in forms(&[0, 1, 0x8000]) {
        either(checker, form);
    }
    checker.phase("hypervisor: the same by every call");
    for form in forms(&[0, 1]) {
        called(checker, form.words());
    }
    checker.phase("hypervisor: marked rows of every span at the edges");
    for span in SPANS {
        for address in inside(span).into_iter().chain(outside(span)) {
            for mark in MARKS {
                edge(checker, mark, span, address);
            }
        }
    }
    checker.phase("hypervisor: payloads of marked rows");
    for payload in 0..1 << 12 {
        let mark = MARKS[payload as usize / 3 % 2];
        let words = marked(first(12, PAGE).page(PAGE, payload), mark);
        fill(checker, words);
    }
}

/// A row by what T-05 speaks of; marks are bits 12:11.
struct Form {
    kind: u64,
    last: bool,
    marks: u64,
    vmid: u64,
    asid: u64,
    global: u64,
}

fn forms(identifiers: &[u64]) -> Vec<Form> {
    let mut forms = Vec::new();
    for number in 0..4 * 2 * 4 * 2 {
        let (kind, last) = (number % 4, number / 4 % 2 == 1);
        let (marks, global) = (number / 8 % 4, number / 32);
        for (&vmid, &asid) in identifiers
            .iter()
            .flat_map(|vmid| identifiers.iter().map(move |asid| (vmid, asid)))
        {
            forms.push(Form {
                kind,
                last,
                marks,
                vmid,
                asid,
                global,
            });
        }
    }
    forms
}

impl Form {
    fn words(&self) -> Words {
        let stage1 = Reach {
            asid: 0,
            ..first(12, PAGE)
        };
        let stage2 = Reach {
            kind: STAGE2,
            ..stage1
        };
        let [word, rest @ ..] = match (self.kind, self.last) {
            (0, true) => ste(0x77, 0, 4, 1 << 5),
            (0, false) => ste_block(0x40, 6),
            (1, true) => cd(0x77, 5, 0),
            (1, false) => cd_table(0x77),
            (2, true) => stage1.page(PAGE, WRITE_BACK),
            (2, false) => stage1.table(),
            (_, true) => stage2.page(PAGE, WRITE_BACK),
            (_, false) => stage2.table(),
        };
        let own = self.marks << 11 | self.global << 4 | self.vmid << 16 | self.asid << 32;
        let [one, two, three] = rest;
        [word | own, one, two, three]
    }

    /// Documents 01 and 02 once more: who may have which of the four parts.
    fn allowed(&self) -> bool {
        let no_vmid = self.vmid == 0;
        let no_space = self.asid == 0 && self.global == 0;
        match (self.kind, self.marks) {
            (2, 0b00) => true,
            (2, 0b01) => no_vmid && no_space,
            (2, 0b10) => no_vmid,
            (_, 0b01..) => false,
            (0, _) => no_space && (self.last || no_vmid),
            (1, _) => no_vmid && self.global == 0 && (self.last || self.asid == 0),
            (_, _) => no_space,
        }
    }
}

const LAW: &str = "a row isn't accepted as T-05 has it";

/// Filled in and as a row; refused with 9 and with 3, or not.
fn either(checker: &mut Checker, form: Form) {
    let words = form.words();
    let fill = Call::Fill {
        row: 1,
        words,
        allowance: 4,
    };
    let empty = with_rows(waiting(0, 0), &[EMPTY; 2]);
    let whole = with_rows(waiting(0, 0), &[EMPTY, words]);
    for (before, call, number) in [(empty, fill, 9), (whole, Call::State, 3)] {
        let mut kept = before.clone();
        let reply = checker.call(&mut kept, call);
        let met = reply.number == if form.allowed() { 0 } else { number };
        checker.insist(met, LAW, &before, call, (reply, &kept));
    }
}

/// The address as the input of a marked row of either level, and as its output.
fn edge(checker: &mut Checker, mark: u64, span: u64, address: u64) {
    let reach = first(span, 0);
    let [page, table] = [reach.page(0, WRITE_BACK), reach.table()].map(|row| marked(row, mark));
    for [word, one, ..] in [page, table] {
        formed(checker, ([word, one, address, 0], true), span, address);
    }
    let [word, one, ..] = page;
    formed(checker, ([word, one, 0, address], false), span, address);
}

fn fill(checker: &mut Checker, words: Words) {
    let mut kept = with_rows(waiting(0, 0), &[EMPTY]);
    let call = Call::Fill {
        row: 0,
        words,
        allowance: 4,
    };
    checker.call(&mut kept, call);
}

/// The rows that a hypervisor may have at a page: each mark and level, with the ASID
/// and another one, global and not.
pub fn own(span: u64, page: u64) -> Vec<Words> {
    let mut rows = Vec::new();
    for number in 0..8 {
        let reach = Reach {
            asid: if number & 1 == 0 { ASID } else { ASID + 1 },
            global: number & 2 != 0,
            ..first(span, page)
        };
        let row = match number & 4 {
            0 => reach.page(PAGE, WRITE_BACK),
            _ => reach.table(),
        };
        rows.push(marked(row, EL2_E2H));
        if number & 3 == 0 {
            rows.push(marked(row, EL2));
        }
    }
    rows
}
