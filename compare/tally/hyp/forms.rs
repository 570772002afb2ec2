//! Marked rows that were accepted, and rows that were refused for a mark.

use super::super::Table;
use super::{heads, line, owned, unmarked, with, GLOBAL, MARKS};
use crate::limits::UPPER;
use crate::model::row::{Kind, Regime, Row};

const GOOD: [&str; 6] = [
    "EL2",
    "EL2 table",
    "E2H",
    "E2H table",
    "global E2H",
    "global table",
];
/// Accepted as a row of a memory, filled in, or cut on the way; in either half.
const WAYS: [&str; 5] = ["image", "filled", "cut", "lower", "upper"];

const KINDS: [&str; 8] = [
    "STE",
    "STE block",
    "CD",
    "CD table",
    "stage 1",
    "stage 1 table",
    "stage 2",
    "stage 2 table",
];
/// Refused with 3 or with 9 for a mark, for both, or for what comes with a mark.
const FAULTS: [&str; 7] = [
    "EL2",
    "E2H",
    "both",
    "EL2 VMID",
    "EL2 ASID",
    "EL2 global",
    "E2H VMID",
];

#[derive(Default)]
pub struct Forms {
    good: [[u64; WAYS.len()]; GOOD.len()],
    bad: [[[u64; 2]; FAULTS.len()]; KINDS.len()],
}

const VMID: u64 = 0xFFFF << 16;
const ASID: u64 = 0xFFFF << 32;

impl Forms {
    pub fn accepted(&mut self, row: &Row, way: usize) {
        if !owned(row) {
            return;
        }
        let form = match (row.regime(), row.global()) {
            (Some(Regime::El2), _) => 0,
            (_, false) => 2,
            (_, true) => 4,
        };
        let counts = &mut self.good[form + usize::from(!row.last_level())];
        counts[way] += 1;
        counts[3 + usize::from(row.input() >= UPPER)] += 1;
    }

    /// A row that is refused, with 3 or with 9, and wouldn't be but for its mark.
    pub fn refused(&mut self, row: Row, by: usize) {
        let kind = 2 * row.kind() as usize + usize::from(!row.last_level());
        let without = |bits: u64| with(&row, bits, 0).sound();
        let stage1 = row.kind() == Kind::Stage1;
        let met = match row.regime() {
            Some(Regime::Guest) => [false; FAULTS.len()],
            _ if !stage1 && !unmarked(&row).sound() => [false; FAULTS.len()],
            None => [
                false,
                false,
                !stage1 || without(MARKS),
                false,
                false,
                false,
                false,
            ],
            Some(Regime::El2) if stage1 => {
                let [vmid, asid] = [VMID, ASID].map(without);
                [false, false, false, vmid, asid, without(GLOBAL), false]
            }
            Some(Regime::El2) => [true, false, false, false, false, false, false],
            Some(Regime::El2E2h) => [
                false,
                !stage1,
                false,
                false,
                false,
                false,
                stage1 && without(VMID),
            ],
        };
        for (count, met) in self.bad[kind].iter_mut().zip(met) {
            count[by] += u64::from(met);
        }
    }

    pub fn print(&self, table: &mut Table) {
        heads("Marked rows", &WAYS);
        for (name, counts) in GOOD.iter().zip(&self.good) {
            line(table, name, counts.iter().map(|&count| (count, true)));
        }
        for (by, number) in [3, 9].into_iter().enumerate() {
            heads(&format!("Bad marks, {number}"), &FAULTS);
            for (kind, counts) in self.bad.iter().enumerate() {
                let cell = |fault: usize| (counts[fault][by], possible(kind, FAULTS[fault]));
                line(table, KINDS[kind], (0..FAULTS.len()).map(cell));
            }
        }
    }
}

/// A mark alone is bad on any kind but stage 1, where it is what comes with it.
fn possible(kind: usize, fault: &str) -> bool {
    let stage1 = KINDS[kind].starts_with("stage 1");
    match fault {
        "both" => true,
        "EL2" | "E2H" => !stage1,
        _ => stage1,
    }
}
