//! Each line of the table of verdicts, by code.

use super::super::Table;
use super::{heads, Alone};
use crate::generate::commands::RANGED;
use crate::model::command::decode;
use crate::model::range::Fields;

/// A column, and whether a command belongs there.
type Column = (&'static str, fn(&Alone) -> bool);

/// Reserved without RIL, by the field that is set, and all of them.
const WITHOUT: [Column; 6] = [
    ("NUM", |alone| alone.lacks([1, 0, 0, 0, 0])),
    ("SCALE", |alone| alone.lacks([0, 1, 0, 0, 0])),
    ("TG", |alone| alone.lacks([0, 0, 1, 0, 0])),
    ("TTL", |alone| alone.lacks([0, 0, 0, 1, 0])),
    ("TTL128", |alone| alone.lacks([0, 0, 0, 0, 1])),
    ("all", |alone| alone.lacks([1, 1, 1, 1, 1])),
];

/// Reserved with RIL: with TG 0, beside TTL 0, and bits that nobody has beside a
/// range that is legal.
const RESERVED: [Column; 12] = [
    ("0, NUM", |alone| alone.has([1, 0, 0, 0, 0], 3)),
    ("0, SCALE", |alone| alone.has([0, 1, 0, 0, 0], 3)),
    ("0, TTL", |alone| alone.has([0, 0, 0, 1, 0], 3)),
    ("0, TTL128", |alone| alone.has([0, 0, 0, 0, 1], 3)),
    ("1, no TTL", |alone| alone.no_level(1)),
    ("2, no TTL", |alone| alone.no_level(2)),
    ("3, no TTL", |alone| alone.no_level(3)),
    ("11:8", |alone| alone.beside(0xF << 8, 0)),
    ("19:17", |alone| alone.beside(7 << 17, 0)),
    ("25", |alone| alone.beside(1 << 25, 0)),
    ("31:26", |alone| alone.beside(0x3F << 26, 0)),
    ("70:65", |alone| alone.beside(0, 0x3F << 1)),
];

/// Bad parameters by TG, TTL and TTL128; and legal ones, with a range, with a level,
/// with both, with TTL128.
const OTHERS: [Column; 14] = [
    ("bad 1", |alone| alone.bad(1, 0, false)),
    ("bad 2", |alone| alone.bad(2, 0, false)),
    ("bad 3", |alone| alone.bad(3, 0, false)),
    ("bad 2, 1", |alone| alone.bad(2, 1, false)),
    ("2, 1, 128", |alone| alone.bad(2, 1, true)),
    ("range 1", |alone| alone.legal(1) && alone.fields.ttl == 0),
    ("range 2", |alone| alone.legal(2) && alone.fields.ttl == 0),
    ("range 3", |alone| alone.legal(3) && alone.fields.ttl == 0),
    ("level 1", |alone| alone.legal(1) && alone.one()),
    ("level 2", |alone| alone.legal(2) && alone.one()),
    ("level 3", |alone| alone.legal(3) && alone.one()),
    ("2, TTL 1", |alone| alone.legal(2) && alone.fields.ttl == 1),
    ("both", |alone| {
        alone.reason == 0 && alone.fields.ttl > 0 && !alone.one()
    }),
    ("TTL128", |alone| alone.reason == 0 && alone.fields.ttl128),
];

#[derive(Default)]
pub struct Verdicts {
    without: [[u64; WITHOUT.len()]; RANGED.len()],
    reserved: [[u64; RESERVED.len()]; RANGED.len()],
    others: [[u64; OTHERS.len()]; RANGED.len()],
}

impl Alone {
    /// Which of NUM, SCALE, TG, TTL and TTL128 are set.
    fn set(&self) -> [u64; 5] {
        let Fields {
            num,
            scale,
            tg,
            ttl,
            ttl128,
        } = self.fields;
        [num, scale, tg, ttl, ttl128.into()].map(|field| field.min(1))
    }

    fn has(&self, set: [u64; 5], reason: u64) -> bool {
        self.features.ril && self.set() == set && self.reason == reason && self.bare()
    }

    fn lacks(&self, set: [u64; 5]) -> bool {
        !self.features.ril && self.set() == set && self.reason == 3 && self.bare()
    }

    /// Whether it would be legal without the fields.
    fn bare(&self) -> bool {
        let (low, high) = (self.low & !0x01F1_F000, self.high & !0xF80);
        decode(low, high, self.features).is_ok()
    }

    fn no_level(&self, tg: u64) -> bool {
        let level = self.fields.ttl == 0 && self.fields.ttl128;
        self.features.ril && self.fields.tg == tg && level && self.reason == 3 && self.bare()
    }

    /// Whether it would be legal without one of the bits.
    fn beside(&self, low: u64, high: u64) -> bool {
        let own = (self.low & low, self.high & high);
        let one = own.0.count_ones() + own.1.count_ones() == 1;
        let right = decode(self.low ^ own.0, self.high ^ own.1, self.features).is_ok();
        one && self.fields.tg != 0 && self.features.ril && self.reason == 3 && right
    }

    fn bad(&self, tg: u64, ttl: u64, ttl128: bool) -> bool {
        let Fields {
            tg: own,
            ttl: level,
            ttl128: wide,
            ..
        } = self.fields;
        self.reason == 4 && (own, level, wide) == (tg, ttl, ttl128)
    }

    fn legal(&self, tg: u64) -> bool {
        self.reason == 0 && self.fields.tg == tg
    }

    fn one(&self) -> bool {
        (self.fields.num, self.fields.scale) == (0, 0)
    }
}

fn add(counts: &mut [u64], columns: &[Column], alone: &Alone) {
    for (count, (_, belongs)) in counts.iter_mut().zip(columns) {
        *count += u64::from(belongs(alone));
    }
}

impl Verdicts {
    pub fn count(&mut self, alone: &Alone) {
        let code = RANGED.iter().position(|&code| code == alone.low & 0xFF);
        if let Some(code) = code {
            add(&mut self.without[code], &WITHOUT, alone);
            add(&mut self.reserved[code], &RESERVED, alone);
            add(&mut self.others[code], &OTHERS, alone);
        }
    }

    pub fn print(&self, table: &mut Table) {
        print(table, "Without RIL", &WITHOUT, &self.without);
        print(table, "Reserved, TG", &RESERVED, &self.reserved);
        print(table, "With RIL, TG", &OTHERS, &self.others);
    }
}

fn print<const N: usize>(
    table: &mut Table,
    title: &str,
    columns: &[Column; N],
    counts: &[[u64; N]; RANGED.len()],
) {
    heads(title, columns);
    for (code, counts) in RANGED.iter().zip(counts) {
        print!("  {:<14}", format!("{code:02X}"));
        counts
            .iter()
            .for_each(|&count| print!("  {}", table.cell(count, true)));
        println!();
    }
}
