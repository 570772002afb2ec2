//! How the rows that a range took or spared lie to it, by code and granule.

use super::super::Table;
use super::{heads, Alone};
use crate::generate::commands::E2H;
use crate::model::command::{decode, Effect, Features};
use crate::model::image::{place, rows};
use crate::model::range::Extent;
use crate::model::row::Row;
use crate::model::scope::{Page, Scope};

/// The codes, those of the hypervisor's rows by E2H.
const CODES: [(u64, u64, &str); 7] = [
    (0x12, 0, "12"),
    (0x13, 0, "13"),
    (0x2A, 0, "2A"),
    (0x22, 0, "22"),
    (0x22, E2H, "22 E2H"),
    (0x23, 0, "23"),
    (0x23, E2H, "23 E2H"),
];
const GRANULES: [(&str, u64); 3] = [("4", 0x1000), ("16", 0x4000), ("64", 0x1_0000)];

/// A row beside a range; ends are one past the last address.
struct Beside<'a> {
    alone: &'a Alone,
    row: &'a Row,
    /// The command's address, the range from its granule on, and the end of the
    /// addresses that the command could have.
    address: u128,
    first: u128,
    end: u128,
    top: u128,
    /// Whether the row is of the sort that the command takes, and whether it went.
    own: bool,
    gone: bool,
}

type Column = (&'static str, fn(&Beside) -> bool);

/// Within the range, equal to it, with the range in it; over one end of it, and by a
/// page only; by rounding; where the range ends at the top, or passes it, or passes
/// the lower half; where it is the longest, or one granule, or that and away from the
/// address; under each hint.
const TAKEN: [Column; 20] = [
    ("within", |it| {
        it.first <= it.from() && it.to() <= it.end && it.size() < it.length()
    }),
    ("equal", |it| it.from() == it.first && it.to() == it.end),
    ("around", |it| {
        it.from() <= it.first && it.end <= it.to() && it.size() > it.length()
    }),
    ("first end", |it| it.from() < it.first && it.to() < it.end),
    ("last end", |it| it.from() > it.first && it.to() > it.end),
    ("one page", |it| {
        let shared = it.to().min(it.end) - it.from().max(it.first);
        shared == 0x1000 && it.size() > shared && it.length() > shared
    }),
    ("rounded", |it| it.to() <= it.address),
    ("at the top", |it| it.end == it.top && it.to() == it.top),
    ("passing it", |it| it.end > it.top),
    ("past 2^52", |it| it.first < 1 << 52 && it.end > 1 << 52),
    ("longest", |it| it.range() == (31, 31)),
    ("granule", |it| it.range() == (0, 0)),
    ("away", |it| {
        let covers = it.from() <= it.address && it.address < it.to();
        it.range() == (0, 0) && !covers
    }),
    ("TTL 0", |it| it.alone.fields.ttl == 0),
    ("TTL 1", |it| it.alone.fields.ttl == 1),
    ("TTL 2", |it| it.alone.fields.ttl == 2),
    ("TTL 3", |it| it.alone.fields.ttl == 3),
    ("TTL128", |it| it.alone.fields.ttl128),
    ("table", |it| !it.row.last_level()),
    ("global", |it| it.row.global()),
];

/// Ending where the range begins and beginning where it ends; not met by rounding,
/// by the end of the space, by Leaf, for being of another sort, or since the ASID or
/// VMID is too wide.
const SPARED: [Column; 7] = [
    ("ends there", |it| it.own && it.to() == it.first),
    ("begins", |it| it.own && it.from() == it.end),
    ("rounded", |it| {
        let end = it.address + it.length();
        it.own && !it.met() && it.address < it.to() && it.from() < end
    }),
    ("wrapped", |it| {
        it.own && !it.met() && it.end > it.top && it.from() < it.end - it.top
    }),
    ("Leaf", |it| {
        it.met() && it.alone.high & 1 == 1 && !it.row.last_level()
    }),
    ("sort", |it| it.met() && it.alone.high & 1 == 0 && !it.own),
    ("too wide", |it| it.met() && it.own && it.too_wide()),
];

impl Beside<'_> {
    fn from(&self) -> u128 {
        self.row.input().into()
    }

    fn to(&self) -> u128 {
        self.from() + self.size()
    }

    fn size(&self) -> u128 {
        1 << self.row.span()
    }

    fn length(&self) -> u128 {
        self.end - self.first
    }

    fn range(&self) -> (u64, u64) {
        (self.alone.fields.num, self.alone.fields.scale)
    }

    fn met(&self) -> bool {
        self.from() < self.end && self.first < self.to()
    }

    fn too_wide(&self) -> bool {
        decode(self.alone.low, self.alone.high, self.alone.features) == Ok(Effect::TooWide)
    }
}

type Counts<const N: usize> = [[[u64; N]; GRANULES.len()]; CODES.len()];

#[derive(Default)]
pub struct Scopes {
    taken: Counts<{ TAKEN.len() }>,
    spared: Counts<{ SPARED.len() }>,
}

/// The scope of the same command without an end.
fn endless(scope: Scope) -> Scope {
    let all = |page: Page| Page {
        extent: Extent::Range(0, 1 << 64),
        leaf: false,
        ..page
    };
    match scope {
        Scope::Stage1Page(page, asid) => Scope::Stage1Page(all(page), asid),
        Scope::El2Page(page) => Scope::El2Page(all(page)),
        Scope::El2E2hPage(page, asid) => Scope::El2E2hPage(all(page), asid),
        Scope::Stage2Page(page) => Scope::Stage2Page(all(page)),
        other => other,
    }
}

impl Scopes {
    pub fn count(&mut self, alone: &Alone, before: &[u64], after: &[u64]) {
        let wider = Features {
            asid16: true,
            vmid16: true,
            ..alone.features
        };
        let effect = decode(alone.low, alone.high, wider);
        let (Ok(Effect::Remove(scope)), 1..) = (effect, alone.fields.tg) else {
            return;
        };
        let code = alone.low & 0xFF;
        let set = match code {
            0x22 | 0x23 => u64::from(alone.features.e2h) * E2H,
            _ => 0,
        };
        let same = |&(known, setting, _): &(u64, u64, &str)| (known, setting) == (code, set);
        let tg = alone.fields.tg as usize - 1;
        let place_of = CODES.iter().position(same).expect("one of the codes");
        let granule = u128::from(GRANULES[tg].1);
        let address = u128::from(alone.high >> 12 << 12);
        let first = address / granule * granule;
        let granules = u128::from(alone.fields.num + 1) << alone.fields.scale;
        for (number, row) in rows(before).enumerate() {
            // Those of a stage alone have a place.
            if !row.used() || row.0[0] & 1 << 2 == 0 {
                continue;
            }
            let beside = Beside {
                alone,
                row: &row,
                address,
                first,
                end: first + granules * granule,
                top: if code == 0x2A { 1 << 52 } else { 1 << 64 },
                own: endless(scope).takes(&row),
                gone: after[place(number)] == 0,
            };
            match beside.gone {
                true => add(&mut self.taken[place_of][tg], &TAKEN, &beside),
                false => add(&mut self.spared[place_of][tg], &SPARED, &beside),
            }
        }
    }

    pub fn print(&self, table: &mut Table) {
        print(table, "Range takes", &TAKEN, &self.taken);
        print(table, "Range spares", &SPARED, &self.spared);
    }
}

fn add(counts: &mut [u64], columns: &[Column], beside: &Beside) {
    for (count, (_, belongs)) in counts.iter_mut().zip(columns) {
        *count += u64::from(belongs(beside));
    }
}

fn print<const N: usize>(
    table: &mut Table,
    title: &str,
    columns: &[Column; N],
    counts: &Counts<N>,
) {
    heads(title, columns);
    for (counts, (code, set, name)) in counts.iter().zip(CODES) {
        for (tg, counts) in counts.iter().enumerate() {
            print!("  {:<14}", format!("{name}, {} KiB", GRANULES[tg].0));
            for (&count, (column, _)) in counts.iter().zip(columns) {
                let wanted = possible(code, set, tg + 1, title, column);
                print!("  {}", table.cell(count, wanted));
            }
            println!();
        }
    }
}

/// Whether a command of the code and granule can come across it.
fn possible(code: u64, set: u64, tg: usize, title: &str, column: &str) -> bool {
    match (title, column) {
        // A range of 4 KiB granules starts where it says, and others share more.
        (_, "rounded") | ("Range takes", "away") => tg > 1,
        ("Range takes", "one page") => tg == 1,
        ("Range takes", "global") => matches!((code, set), (0x12 | 0x13, _) | (_, E2H)),
        (_, "too wide") => code != 0x23,
        _ => true,
    }
}
