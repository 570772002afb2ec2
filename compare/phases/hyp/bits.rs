//! Every bit of the four commands, under every combination of the features.

use super::forms::own;
use super::{first, insist, taken, ASID, WRITE_BACK};
use crate::call::RAISED;
use crate::checker::Checker;
use crate::generate::commands::{combinations, Command, HYP, HYP_CODES, RIL};
use crate::generate::rows::{marked, Reach, Words, EL2_E2H};
use crate::phases::reasons::bits::{changed, full};

/// The last page of the 64-bit space.
const TOP: u64 = !0xFFF;
const S1P: u64 = 1;

pub fn sweeps(checker: &mut Checker) {
    checker.phase("hypervisor: each bit of its commands under every feature");
    let rows = rows();
    for code in HYP_CODES {
        for command in [(code, 0), full(code)] {
            for features in combinations() {
                one(checker, &rows, command, features);
                for bit in 8..128 {
                    one(checker, &rows, changed(command, bit), features);
                }
            }
        }
    }
}

/// Rows that a bare command is about, and one with every bit that it may have.
fn rows() -> Vec<Words> {
    let widest = Reach {
        asid: 0xFFFF,
        ..first(12, TOP)
    };
    let bare = Reach {
        asid: 0,
        ..first(12, 0)
    };
    let mut rows = own(12, 0);
    rows.truncate(4);
    rows.extend(own(12, TOP).into_iter().skip(4).take(4));
    for reach in [widest, bare] {
        rows.push(marked(reach.page(0, WRITE_BACK), EL2_E2H));
        rows.push(reach.table());
    }
    rows.push(marked(Reach { asid: ASID, ..bare }.table(), EL2_E2H));
    rows
}

/// The bits that a command of the code may have set.
fn named(code: u64) -> Command {
    let (asid, page) = (0xFFFF << 48, !0xFFF | 1);
    match code {
        0x20 => (0xFF, 0),
        0x21 => (0xFF | asid, 0),
        0x22 => (0xFF | asid, page),
        _ => (0xFF, page),
    }
}

const LAW: &str = "a command of the hypervisor's isn't illegal as T-05 and T-09 have it";

/// Feature absent, then Reserved bit; else it is carried out. With RIL a bit of TG
/// alone is a bad parameter, and the other fields of a range are Reserved without it.
fn one(checker: &mut Checker, rows: &[Words], command: Command, features: u64) {
    let code = command.0 & 0xFF;
    let (low, high) = named(code);
    let absent = features & S1P == 0 || features & HYP == 0;
    let tg = match code {
        0x22 | 0x23 if features & RIL != 0 => 0b11 << 10,
        _ => 0,
    };
    let reserved = command.0 & !low != 0 || command.1 & !(high | tg) != 0;
    let bad = command.1 & tg != 0;
    let (_, answer) = taken(checker, rows, command, features);
    let [end, _, _, _, _, reason, ..] = answer;
    let met = match (absent, reserved, bad) {
        (true, _, _) => (end, reason) == (RAISED, 2),
        (false, true, _) => (end, reason) == (RAISED, 3),
        (false, false, true) => (end, reason) == (RAISED, 4),
        (false, false, false) => end != RAISED,
    };
    insist(checker, met, LAW, rows, (command, features));
}
