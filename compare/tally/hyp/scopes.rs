//! What each command took of each form of stage row and what it spared, under each
//! setting; and why commands for marked rows took none.

use super::super::Table;
use super::{heads, line, with, GLOBAL, MARKS};
use crate::call::{Reply, CUT, RAISED};
use crate::generate::commands::HYP_CODES;
use crate::model::command::{decode, Effect, Features};
use crate::model::control::Control;
use crate::model::image::{place, rows};
use crate::model::row::{Kind, Regime, Row};
use crate::model::scope::Scope;

const CODES: [u64; 11] = [
    0x10, 0x11, 0x12, 0x13, 0x20, 0x21, 0x22, 0x23, 0x28, 0x2A, 0x30,
];
const SETTINGS: [&str; 3] = ["no Hyp", "Hyp", "E2H"];
const FORMS: [&str; 10] = [
    "guest",
    "table",
    "EL2",
    "EL2 table",
    "E2H",
    "E2H table",
    "global",
    "gl. table",
    "stage 2",
    "2 table",
];

/// Without Hyp, without S1P, without either; too wide an ASID without E2H and with
/// it, with a row that would have gone.
const NONE: [&str; 5] = ["no Hyp", "no S1P", "neither", "too wide", "wide, E2H"];

#[derive(Default)]
pub struct Scopes {
    taken: [[[u64; FORMS.len()]; SETTINGS.len()]; CODES.len()],
    spared: [[[u64; FORMS.len()]; SETTINGS.len()]; CODES.len()],
    none: [[u64; NONE.len()]; HYP_CODES.len()],
}

type Run<'a> = (&'a [u8], u64);

impl Scopes {
    /// A run of one command.
    pub fn ran(&mut self, before: &[u64], (queue, features): Run, reply: &Reply, after: &[u64]) {
        let [end, consumed, ..] = reply.answer;
        let raised = end == RAISED && consumed == 0;
        if !raised && (end == CUT || end == RAISED || consumed != 1) {
            return;
        }
        let slot = 16 * Control::fields(before[0]).slot() as usize;
        let word = |from: usize| u64::from_le_bytes(queue[from..from + 8].try_into().unwrap());
        let command = (word(slot), word(slot + 8));
        let features = Features::from_bits(features);
        if let Some(place) = HYP_CODES.iter().position(|&code| code == command.0 & 0xFF) {
            self.none(place, command, features, before);
        }
        let effect = decode(command.0, command.1, features);
        let code = CODES.iter().position(|&code| code == command.0 & 0xFF);
        if let (Ok(Effect::Remove(scope)), Some(code)) = (effect, code) {
            let setting = match (features.hyp, features.e2h) {
                (false, _) => 0,
                (true, e2h) => 1 + usize::from(e2h),
            };
            self.carried_out(code, setting, scope, (before, after));
        }
    }

    fn none(&mut self, place: usize, (low, high): (u64, u64), features: Features, kept: &[u64]) {
        let counts = &mut self.none[place];
        match (features.hyp, features.s1p) {
            (false, true) => counts[0] += 1,
            (true, false) => counts[1] += 1,
            (false, false) => counts[2] += 1,
            (true, true) => (),
        }
        let wider = Features {
            asid16: true,
            ..features
        };
        let wide = decode(low, high, features) == Ok(Effect::TooWide);
        if let (true, Ok(Effect::Remove(scope))) = (wide, decode(low, high, wider)) {
            // By its lower bits, or without E2H by none of them.
            let narrow = decode(low & !(0xFF << 56), high, features);
            let either = |row: &Row| match narrow {
                Ok(Effect::Remove(narrow)) => scope.takes(row) || narrow.takes(row),
                _ => scope.takes(row),
            };
            let met = rows(kept).any(|row| either(&row));
            counts[3 + usize::from(features.e2h)] += u64::from(met);
        }
    }

    fn carried_out(
        &mut self,
        code: usize,
        setting: usize,
        scope: Scope,
        (before, after): (&[u64], &[u64]),
    ) {
        for (number, row) in rows(before).enumerate().filter(|(_, row)| row.used()) {
            let Some(form) = form(&row) else {
                continue;
            };
            if after[place(number)] == 0 {
                self.taken[code][setting][form] += 1;
            } else if nearly(&row, scope) {
                self.spared[code][setting][form] += 1;
            }
        }
    }

    pub fn print(&self, table: &mut Table) {
        for (title, counts, taken) in [
            ("Taken by", &self.taken, true),
            ("Spared by", &self.spared, false),
        ] {
            heads(title, &FORMS);
            for (place, code) in CODES.into_iter().enumerate() {
                // Without Hyp those of the hypervisor's are illegal.
                let first = usize::from(HYP_CODES.contains(&code));
                for (setting, name) in SETTINGS.iter().enumerate().skip(first) {
                    let name = format!("{code:02X} {name}");
                    let cell = |form: usize| {
                        let wanted = may_take(code, setting, FORMS[form]) == taken;
                        (counts[place][setting][form], wanted)
                    };
                    line(table, &name, (0..FORMS.len()).map(cell));
                }
            }
        }
        heads("Taken none", &NONE);
        for (place, code) in HYP_CODES.into_iter().enumerate() {
            let spaces = matches!(code, 0x21 | 0x22);
            let cell = |way: usize| (self.none[place][way], way < 3 || spaces);
            line(table, &format!("{code:02X}"), (0..NONE.len()).map(cell));
        }
    }
}

fn form(row: &Row) -> Option<usize> {
    let form = match (row.kind(), row.regime(), row.global()) {
        (Kind::Stage1, Some(Regime::Guest), _) => 0,
        (Kind::Stage1, Some(Regime::El2), _) => 2,
        (Kind::Stage1, Some(Regime::El2E2h), false) => 4,
        (Kind::Stage1, Some(Regime::El2E2h), true) => 6,
        (Kind::Stage2, _, _) => 8,
        _ => return None,
    };
    Some(form + usize::from(!row.last_level()))
}

/// Whether the row would go if it were of the other stage, had another mark, or were
/// global or not.
fn nearly(row: &Row, scope: Scope) -> bool {
    let kinds = [0b100, 0b110];
    let marks = [0, 1 << 11, 1 << 12];
    let mut others = kinds
        .into_iter()
        .flat_map(|kind| marks.map(|mark| kind | mark));
    others.any(|bits| {
        let other = with(row, MARKS | 0b110, bits);
        scope.takes(&other) || scope.takes(&with(&other, GLOBAL, !row.0[0] & GLOBAL))
    })
}

/// Whether a command may take a row of the form. A global row is a guest's like
/// others; of the hypervisor's they have columns of their own.
fn may_take(code: u64, setting: usize, form: &str) -> bool {
    let guest = matches!(form, "guest" | "table");
    let second = matches!(form, "stage 2" | "2 table");
    let el2 = matches!(form, "EL2" | "EL2 table");
    let space = matches!(form, "E2H" | "E2H table");
    match code {
        0x10..=0x13 => guest,
        0x20 => !guest && !second,
        0x21 => space,
        0x22 | 0x23 if SETTINGS[setting] == "E2H" => !guest && !second && !el2,
        0x22 | 0x23 => el2,
        0x2A => second,
        _ => guest || second,
    }
}
