//! How the rows that 73 took or spared lie to it, by its SIZE; and those of 70.

use super::super::Table;
use super::{heads, line};
use crate::generate::regions::SIZES;
use crate::limits::ADDRESS;
use crate::model::command::{decode, Features};
use crate::model::region::{regions, Region};

/// A row beside a command of code 73.
struct Beside {
    code: u64,
    last: bool,
    base: u64,
    address: u64,
    above: u64,
    size: u64,
    leaf: bool,
}

type Column = (&'static str, fn(&Beside) -> bool);

/// At the region's start and end, smaller or equal; at either end of the space; with
/// bits 55:52 set; by level.
const TAKEN: [Column; 9] = [
    ("smaller", |it| it.code < it.size),
    ("equal", |it| it.code == it.size),
    ("at its end", |it| it.to() == it.end() && it.code < it.size),
    ("at 0", |it| it.base == 0),
    ("at 2^52", |it| it.to() == ADDRESS),
    ("55:52", |it| it.above != 0),
    ("leaf", |it| it.leaf && it.last),
    ("page", |it| !it.leaf && it.last),
    ("table", |it| !it.leaf && !it.last),
];

/// Larger, from the address on or around it; before the region and behind it; by Leaf;
/// met, but for an address that isn't aligned or a SIZE that is Reserved.
const SPARED: [Column; 7] = [
    ("larger", |it| {
        it.whole() && it.code > it.size && it.base == it.address
    }),
    ("around", |it| {
        let around = it.base < it.address && it.end() <= it.to();
        it.whole() && it.code > it.size && around
    }),
    ("before", |it| {
        it.whole() && it.fits() && it.to() == it.address
    }),
    ("behind", |it| {
        it.whole() && it.fits() && it.base == it.end()
    }),
    ("Leaf", |it| {
        let inside = it.address <= it.base && it.to() <= it.end();
        it.whole() && inside && it.leaf && !it.last
    }),
    ("unaligned", |it| {
        let met = it.base <= it.address && it.address < it.to();
        it.size < 10 && !it.whole() && it.fits() && met && it.last
    }),
    ("Reserved", |it| {
        it.size >= 10 && it.base == it.address && it.last
    }),
];

impl Beside {
    fn to(&self) -> u64 {
        self.base + (1 << SIZES[self.code as usize])
    }

    fn bytes(&self) -> u64 {
        SIZES.get(self.size as usize).map_or(0, |&size| 1 << size)
    }

    fn end(&self) -> u64 {
        self.address + self.bytes()
    }

    fn fits(&self) -> bool {
        self.code <= self.size
    }

    /// Whether the address is a multiple of a size that there is.
    fn whole(&self) -> bool {
        self.address.checked_rem(self.bytes()) == Some(0)
    }
}

const CODES: usize = 16;
const ROW_CODES: usize = SIZES.len();

#[derive(Default)]
pub struct Scopes {
    taken: [[u64; TAKEN.len()]; CODES],
    spared: [[u64; SPARED.len()]; CODES],
    /// Each size of a command with each size of a row: taken, and within but larger.
    pairs: [[[u64; 2]; ROW_CODES]; CODES],
    /// Rows of each size that 70 took, last-level and not.
    all: [[u64; 2]; ROW_CODES],
}

impl Scopes {
    /// A command that was alone in its run and consumed, with the table before and
    /// after.
    pub fn count(&mut self, (low, high): (u64, u64), features: u64, tables: (&[u64], &[u64])) {
        let legal = decode(low, high, Features::from_bits(features)).is_ok();
        let code = low & 0xFF;
        if !legal || !matches!(code, 0x70 | 0x73) {
            return;
        }
        for (old, new) in regions(tables.0).zip(regions(tables.1)) {
            match old.used() {
                true if code == 0x70 => self.count_all(&old),
                true => self.count_one(&old, high, !new.used()),
                false => (),
            }
        }
    }

    fn count_all(&mut self, region: &Region) {
        let code = region.0[0] as usize >> 2;
        self.all[code][usize::from(!region.last_level())] += 1;
    }

    fn count_one(&mut self, region: &Region, high: u64, gone: bool) {
        let beside = Beside {
            code: region.0[0] >> 2,
            last: region.last_level(),
            base: region.base(),
            address: high % ADDRESS >> 12 << 12,
            above: high >> 52,
            size: high >> 8 & 15,
            leaf: high & 1 == 1,
        };
        let size = beside.size as usize;
        let pair = &mut self.pairs[size][beside.code as usize];
        match gone {
            true => add(&mut self.taken[size], &TAKEN, &beside),
            false => add(&mut self.spared[size], &SPARED, &beside),
        }
        pair[0] += u64::from(gone);
        pair[1] += u64::from(!gone && !beside.fits() && beside.base == beside.address);
    }

    pub fn print(&self, table: &mut Table) {
        heads("73 takes", &TAKEN.map(|(head, _)| head));
        for (size, counts) in self.taken.iter().enumerate() {
            let wanted = |column: &str| match column {
                "smaller" | "at its end" => (1..10).contains(&size),
                _ => size < 10,
            };
            let cell = |(&count, (head, _)): (&u64, Column)| (count, wanted(head));
            line(
                table,
                &format!("SIZE {size}"),
                counts.iter().zip(TAKEN).map(cell),
            );
        }
        heads("73 spares", &SPARED.map(|(head, _)| head));
        for (size, counts) in self.spared.iter().enumerate() {
            let wanted = |column: &str| match column {
                "Reserved" => size >= 10,
                // The least size has none that is unaligned, the largest none larger.
                "unaligned" => (1..10).contains(&size),
                "larger" | "around" => size < 9,
                _ => size < 10,
            };
            let cell = |(&count, (head, _)): (&u64, Column)| (count, wanted(head));
            line(
                table,
                &format!("SIZE {size}"),
                counts.iter().zip(SPARED).map(cell),
            );
        }
        let codes: [String; ROW_CODES] = std::array::from_fn(|code| format!("row {code}"));
        let codes = codes.each_ref().map(String::as_str);
        heads("73, row goes", &codes);
        for (size, pairs) in self.pairs.iter().enumerate() {
            let cell = |(code, pair): (usize, &[u64; 2])| (pair[0], code <= size && size < 10);
            line(
                table,
                &format!("SIZE {size}"),
                pairs.iter().enumerate().map(cell),
            );
        }
        heads("73, row stays", &codes);
        for (size, pairs) in self.pairs.iter().enumerate() {
            let cell = |(code, pair): (usize, &[u64; 2])| (pair[1], code > size && size < 10);
            line(
                table,
                &format!("SIZE {size}"),
                pairs.iter().enumerate().map(cell),
            );
        }
        heads("70, row goes", &codes);
        for (level, name) in ["last-level", "not"].into_iter().enumerate() {
            line(table, name, self.all.map(|counts| (counts[level], true)));
        }
    }
}

fn add(counts: &mut [u64], columns: &[Column], beside: &Beside) {
    for (count, (_, belongs)) in counts.iter_mut().zip(columns) {
        *count += u64::from(belongs(beside));
    }
}
