//! Commands that were to be written, alone or in a batch: for each code and for each of
//! its fields.

use super::{add, heads, line};
use crate::generate::commands::{CODES, RANGED};
use crate::generate::fields::{self, largest, own};
use crate::model::command::{decode, supported, Effect, Features};
use crate::model::fields::*;
use crate::model::reason::Reason;
use crate::tally::Table;

/// Written, with bits that the features don't have, by a batch; refused with 20, with
/// something else wrong as well; with 21 for a field that is too wide, for one that the
/// code doesn't have, for the word that is none, for a Reserved bit, for a bad
/// parameter, and for a code that is none.
const FATES: [&str; 11] = [
    "written", "wide ID", "batch", "no 20", "& bad", "too wide", "foreign", "word 15", "Reserved",
    "bad", "unknown",
];
/// A field that is written as 0, as 1, as its largest value; and that is refused for
/// being one more, and all ones.
const VALUES: [&str; 5] = ["0", "1", "largest", "one more", "all ones"];
const NAMES: [&str; 16] = [
    "code",
    "StreamID",
    "SubstreamID",
    "Range",
    "Leaf",
    "VMID",
    "ASID",
    "address",
    "CS",
    "NUM",
    "SCALE",
    "TG",
    "TTL",
    "TTL128",
    "SIZE",
    "",
];
/// The place for codes that aren't commands.
const OTHER: usize = CODES.len();

#[derive(Default)]
pub struct Commands {
    fates: [[u64; FATES.len()]; OTHER + 1],
    values: [[[u64; VALUES.len()]; 16]; OTHER],
}

/// The refusal that a command gets in itself; 0 if it gets none.
pub fn due(fields: &Fields, features: u64) -> u64 {
    let features = Features::from_bits(features);
    match put(fields) {
        _ if places(fields[CODE]).is_some() && !supported(fields[CODE], features) => 20,
        Some(command) if decode(command as u64, (command >> 64) as u64, features).is_ok() => 0,
        _ => 21,
    }
}

impl Commands {
    pub fn count(&mut self, fields: &Fields, features: u64, number: u64, batch: bool) {
        let code = fields[CODE];
        let place = CODES.iter().position(|&known| known == code);
        let known = place.is_some();
        let command = put(fields);
        let decoded = command.map(|command| {
            let features = Features::from_bits(features);
            decode(command as u64, (command >> 64) as u64, features)
        });
        let wide = |&field: &usize| fields[field] > largest(code, field);
        let foreign = |field: &usize| !own(code).contains(field) && fields[*field] != 0;
        let refused = number == 21 && known;
        let fates = [
            number == 0,
            number == 0 && decoded == Some(Ok(Effect::TooWide)),
            number == 0 && batch,
            number == 20,
            number == 20 && command.is_none(),
            refused && own(code).iter().any(wide),
            refused && (1..15).any(|field| foreign(&field)),
            refused && fields[fields::NONE] != 0,
            refused && decoded == Some(Err(Reason::ReservedBit)),
            refused && decoded == Some(Err(Reason::BadParameter)),
            number == 21 && !known,
        ];
        add(&mut self.fates[place.unwrap_or(OTHER)], fates);
        if let Some(place) = place {
            self.count_values(place, fields, number);
        }
    }

    fn count_values(&mut self, place: usize, fields: &Fields, number: u64) {
        for &field in own(fields[CODE]) {
            let (value, largest) = (fields[field], largest(fields[CODE], field));
            let values = [
                number == 0 && value == 0,
                number == 0 && value == 1,
                number == 0 && value == largest,
                number == 21 && value == largest + 1,
                number == 21 && value == u64::MAX,
            ];
            add(&mut self.values[place][field], values);
        }
    }

    pub fn print(&self, table: &mut Table) {
        heads("Written", &FATES);
        for (place, counts) in self.fates.iter().enumerate() {
            let code = CODES.get(place).copied();
            let name = code.map_or("other".into(), |code| format!("{code:02X}"));
            let counts = counts.iter().zip(FATES);
            let wanted = |fate| code.map_or(fate == "unknown", |code| can(code, fate));
            line(
                table,
                &name,
                counts.map(|(&count, fate)| (count, wanted(fate))),
            );
        }
        heads("Fields", &VALUES);
        for (code, fields) in CODES.into_iter().zip(&self.values) {
            for &field in own(code) {
                let name = format!("{code:02X} {}", NAMES[field]);
                // CS 3 is the largest, and illegal.
                let wanted = |value: &str| (field, value) != (CS, "largest");
                let counts = fields[field].iter().zip(VALUES);
                line(
                    table,
                    &name,
                    counts.map(|(&count, value)| (count, wanted(value))),
                );
            }
        }
    }
}

/// Whether a command of the code can come to that.
fn can(code: u64, fate: &str) -> bool {
    let has = |field: usize| own(code).contains(&field);
    let wants = !matches!(code, 0x01 | 0x02 | 0x03 | 0x04 | 0x30 | 0x46);
    match fate {
        "wide ID" => has(VMID) || has(ASID),
        "no 20" | "& bad" => wants,
        "too wide" => !own(code).is_empty(),
        "Reserved" => RANGED.contains(&code) || matches!(code, 0x10 | 0x11),
        "bad" => RANGED.contains(&code) || code == 0x46,
        "unknown" => false,
        _ => true,
    }
}
