//! Commands that take other rows: they see a row as one of another sort, or not at
//! all.

use super::{cleared, guest, is, owned, without, Asked, Fault};
use super::{ASID, GLOBAL, MARKS};
use crate::generate::commands::{E2H, HYP_CODES};
use crate::generate::rows::{marked, EL2, EL2_E2H};
use crate::limits::ADDRESS;
use crate::model::row::{Kind, Row};

/// Those that are alike for several codes.
pub fn each() -> Vec<(String, Fault)> {
    let mut all = Vec::new();
    let others: [&'static [u8]; 6] = [&[0x10], &[0x11], &[0x12], &[0x13], &[0x28], &[0x30]];
    for codes in others {
        let name = |what: &str| format!("{:02X} takes {what} rows", codes[0]);
        all.push((name("EL2"), Fault::Scans(codes, el2_as_guest)));
        all.push((name("EL2-E2H"), Fault::Scans(codes, el2_e2h_as_guest)));
        // 11 spares global rows in any case.
        if codes != [0x11] {
            all.push((name("global EL2-E2H"), Fault::Scans(codes, global_as_guest)));
        }
    }
    let own: [&'static [u8]; HYP_CODES.len()] = [&[0x20], &[0x21], &[0x22], &[0x23]];
    for codes in own {
        let name = |what: &str| format!("{:02X} {what}", codes[0]);
        let guests = Fault::Scans(codes, guest_as_own);
        all.push((name("takes guests' rows"), guests));
        let second = Fault::Scans(codes, stage2_as_own);
        all.push((name("takes stage 2 rows"), second));
        let tables = Fault::Scans(codes, |row, _| hidden(row, own_table(&row)));
        all.push((name("spares tables"), tables));
        let upper = Fault::Scans(codes, |row, _| {
            hidden(row, owned(&row) && row.input() >= ADDRESS)
        });
        all.push((name("spares upper rows"), upper));
    }
    all
}

pub const ALL: [(&str, Fault); 22] = [
    ("2A takes marked rows", Fault::Scans(&[0x2A], as_stage2)),
    ("20 goes by E2H", Fault::Scans(&[0x20], by_e2h)),
    (
        "20 takes EL2 rows only",
        Fault::Scans(&[0x20], |row, _| hidden(row, is(&row, EL2_E2H))),
    ),
    (
        "20 takes EL2-E2H rows only",
        Fault::Scans(&[0x20], |row, _| hidden(row, is(&row, EL2))),
    ),
    (
        "20 spares global rows",
        Fault::Scans(&[0x20], |row, _| hidden(row, owned(&row) && row.global())),
    ),
    (
        "21 takes global rows",
        Fault::Scans(&[0x21], |row, _| without(row, EL2_E2H, GLOBAL)),
    ),
    (
        "21 takes EL2 rows",
        Fault::Scans(&[0x21], |row, _| el2_as_e2h(row)),
    ),
    ("21 takes every ASID", Fault::Scans(&[0x21], of_any_asid)),
    (
        "21 takes nothing without E2H",
        Fault::Scans(&[0x21], |row, asked| hidden(row, !asked.has(E2H))),
    ),
    (
        "21 takes nothing with E2H",
        Fault::Scans(&[0x21], |row, asked| hidden(row, asked.has(E2H))),
    ),
    (
        "22 compares the ASID without E2H",
        Fault::Scans(&[0x22], |row, asked| {
            let other = !asked.has(E2H) && asked.low >> 48 != 0;
            hidden(row, other)
        }),
    ),
    (
        "22 takes EL2 rows with E2H",
        Fault::Scans(&[0x22], |row, asked| match asked.has(E2H) {
            true => of_any_asid(el2_as_e2h(row), asked),
            false => row,
        }),
    ),
    (
        "22 takes EL2 rows of ASID 0 with E2H",
        Fault::Scans(&[0x22], |row, asked| match asked.has(E2H) {
            true => el2_as_e2h(row),
            false => row,
        }),
    ),
    (
        "22 takes EL2-E2H rows without E2H",
        Fault::Scans(&[0x22], e2h_without),
    ),
    (
        "22 spares global rows",
        Fault::Scans(&[0x22], |row, asked| {
            let other = row.asid() != asked.low >> 48;
            hidden(row, is(&row, EL2_E2H) && row.global() && other)
        }),
    ),
    ("22 takes every ASID", Fault::Scans(&[0x22], of_any_asid)),
    (
        "23 compares the ASID",
        Fault::Scans(&[0x23], |row, _| {
            hidden(row, is(&row, EL2_E2H) && row.asid() != 0 && !row.global())
        }),
    ),
    (
        "23 compares the ASID of global rows",
        Fault::Scans(&[0x23], |row, _| {
            hidden(row, is(&row, EL2_E2H) && row.asid() != 0 && row.global())
        }),
    ),
    (
        "23 takes EL2 rows with E2H",
        Fault::Scans(&[0x23], |row, asked| match asked.has(E2H) {
            true => el2_as_e2h(row),
            false => row,
        }),
    ),
    (
        "23 takes EL2-E2H rows without E2H",
        Fault::Scans(&[0x23], e2h_without),
    ),
    (
        "23 spares global rows",
        Fault::Scans(&[0x23], |row, _| hidden(row, owned(&row) && row.global())),
    ),
    (
        "22 and 23 take lower rows for upper ones",
        Fault::Scans(&[0x22, 0x23], |row, asked| {
            let [word, one, input, output] = row.0;
            let upper = asked.high / ADDRESS * ADDRESS;
            match owned(&row) && upper.wrapping_neg() == ADDRESS {
                true => Row([word, one, input | upper, output]),
                false => row,
            }
        }),
    ),
];

/// An empty row instead, if so.
fn hidden(row: Row, so: bool) -> Row {
    if so {
        cleared(row, u64::MAX)
    } else {
        row
    }
}

fn own_table(row: &Row) -> bool {
    owned(row) && !row.last_level()
}

fn el2_as_guest(row: Row, _: &Asked) -> Row {
    without(row, EL2, MARKS)
}

fn el2_e2h_as_guest(row: Row, _: &Asked) -> Row {
    without(row, EL2_E2H, MARKS)
}

fn global_as_guest(row: Row, _: &Asked) -> Row {
    match row.global() {
        true => without(row, EL2_E2H, MARKS),
        false => row,
    }
}

/// A guest's row as one of the sort that the command is about.
fn guest_as_own(row: Row, asked: &Asked) -> Row {
    let mark = match asked.code() {
        0x21 => EL2_E2H,
        0x20 => EL2,
        _ if asked.has(E2H) => EL2_E2H,
        _ => EL2,
    };
    match is(&row, 0) {
        true => Row(marked(row.0, mark)),
        false => row,
    }
}

/// The same of a stage 2 row.
fn stage2_as_own(row: Row, asked: &Asked) -> Row {
    match row.kind() {
        Kind::Stage2 => guest_as_own(cleared(row, 1 << 1), asked),
        _ => row,
    }
}

/// A marked row as one of stage 2 in the lower half.
fn as_stage2(row: Row, _: &Asked) -> Row {
    let Row([word, one, input, output]) = cleared(guest(&row), ASID | GLOBAL | 0x3F << 54);
    match owned(&row) {
        true => Row([word | 1 << 1, one, input % ADDRESS, output]),
        false => row,
    }
}

fn by_e2h(row: Row, asked: &Asked) -> Row {
    let other = if asked.has(E2H) { EL2 } else { EL2_E2H };
    hidden(row, is(&row, other))
}

fn el2_as_e2h(row: Row) -> Row {
    match is(&row, EL2) {
        true => Row(marked(row.0, EL2_E2H)),
        false => row,
    }
}

/// An EL2-E2H row as an EL2 row, if E2H isn't set.
fn e2h_without(row: Row, asked: &Asked) -> Row {
    match is(&row, EL2_E2H) && !asked.has(E2H) {
        true => Row(marked(row.0, EL2)),
        false => row,
    }
}

/// An EL2-E2H row with the command's ASID.
fn of_any_asid(row: Row, asked: &Asked) -> Row {
    let Row([word, one, two, three]) = without(row, EL2_E2H, ASID);
    match is(&row, EL2_E2H) {
        true => Row([word | asked.low >> 48 << 32, one, two, three]),
        false => row,
    }
}
