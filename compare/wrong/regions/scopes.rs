//! Commands that take other rows of the table.

use super::{Asked, Fault};
use crate::generate::regions::SIZES;
use crate::limits::{ADDRESS, REGIONS};
use crate::model::command::{decode, Effect, Features};
use crate::model::region::Region;

type Takes = fn(&Asked, usize, &Region) -> bool;

/// Those of code 73.
const SOME: [(&str, Takes); 42] = [
    ("nothing", |_, _, _| false),
    ("everything", |_, _, _| true),
    ("a larger row at the address", |it, _, row| {
        right(it, row) || it.whole() && level(it, row) && row.base() == it.start()
    }),
    ("a larger row around the address", |it, _, row| {
        right(it, row) || it.whole() && level(it, row) && holds(row, it.start())
    }),
    ("a larger row that it meets", |it, _, row| {
        let meets = row.base() < it.limit() && it.start() < end(row);
        right(it, row) || it.whole() && level(it, row) && meets
    }),
    ("a row one size larger", |it, _, row| {
        let one = row.0[0] >> 2 == it.size() + 1;
        right(it, row) || it.whole() && level(it, row) && one && holds(row, it.start())
    }),
    ("only rows of its size", |it, _, row| {
        right(it, row) && row.0[0] >> 2 == it.size()
    }),
    ("no row of its size", |it, _, row| {
        right(it, row) && row.0[0] >> 2 != it.size()
    }),
    ("only the row at the address", |it, _, row| {
        right(it, row) && row.base() == it.start()
    }),
    ("not the row at the address", |it, _, row| {
        right(it, row) && row.base() != it.start()
    }),
    ("not the last row within", |it, _, row| {
        right(it, row) && (end(row) != it.limit() || row.base() == it.start())
    }),
    ("the row behind", |it, _, row| {
        right(it, row) || it.whole() && level(it, row) && fits(it, row) && row.base() == it.limit()
    }),
    ("the row before", |it, _, row| {
        let before = end(row) == it.start();
        right(it, row) || it.whole() && level(it, row) && fits(it, row) && before
    }),
    ("an unaligned address rounded down", |it, _, row| {
        let start = it.start() / it.bytes().max(1) * it.bytes();
        it.bytes() > 0 && level(it, row) && fits(it, row) && within(row, start, it.bytes())
    }),
    ("an unaligned address as it is", |it, _, row| {
        let start = it.start();
        level(it, row) && fits(it, row) && within(row, start, it.bytes())
    }),
    ("an unaligned address by 4KB", |it, _, row| {
        let page = row.0[0] >> 2 == 0 && row.base() == it.start();
        right(it, row) || it.bytes() > 0 && !it.whole() && level(it, row) && page
    }),
    ("an unaligned address takes what it meets", |it, _, row| {
        let meets = row.base() < it.limit() && it.start() < end(row);
        let unaligned = it.bytes() > 0 && !it.whole();
        right(it, row) || unaligned && level(it, row) && fits(it, row) && meets
    }),
    ("aligned to half its size", |it, _, row| {
        let half = it.bytes() / 2;
        let whole = half > 0 && it.start() % half == 0;
        right(it, row) || whole && level(it, row) && within(row, it.start(), it.bytes())
    }),
    ("only at multiples of 512GB", |it, _, row| {
        right(it, row) && it.start() % (1 << 39) == 0
    }),
    ("a Reserved SIZE as 512GB", |it, _, row| match it.size() {
        10.. => level(it, row) && within(row, it.start(), 1 << 39),
        _ => right(it, row),
    }),
    ("a Reserved SIZE as 4KB", |it, _, row| match it.size() {
        10.. => level(it, row) && row.0[0] >> 2 == 0 && row.base() == it.start(),
        _ => right(it, row),
    }),
    ("a Reserved SIZE as everything", |it, _, row| {
        it.size() > 9 && level(it, row) || right(it, row)
    }),
    ("SIZE 15 as everything", |it, _, row| {
        it.size() == 15 || right(it, row)
    }),
    ("SIZE 10 as the row at the address", |it, _, row| {
        it.size() == 10 && row.base() == it.start() || right(it, row)
    }),
    ("Leaf not read", |it, _, row| {
        right(it, row) || it.whole() && fits(it, row) && within(row, it.start(), it.bytes())
    }),
    ("Leaf the other way", |it, _, row| {
        let level = row.last_level() || it.high & 1 == 0;
        let other = !row.last_level() || it.high & 1 == 0;
        let inside = it.whole() && fits(it, row) && within(row, it.start(), it.bytes());
        if level == other {
            right(it, row)
        } else {
            other && inside
        }
    }),
    ("Leaf always 1", |it, _, row| {
        right(it, row) && row.last_level()
    }),
    ("Leaf 1 takes last-level rows of 4KB alone", |it, _, row| {
        right(it, row) && (it.high & 1 == 0 || row.0[0] >> 2 == 0)
    }),
    ("bits 55:52 compared", |it, _, row| {
        right(it, row) && it.high >> 52 == 0
    }),
    ("bits 55:52 compared where they are 15", |it, _, row| {
        right(it, row) && it.high >> 52 != 15
    }),
    ("bit 55 compared", |it, _, row| {
        right(it, row) && it.high >> 55 == 0
    }),
    ("bit 52 compared", |it, _, row| {
        right(it, row) && it.high >> 52 & 1 == 0
    }),
    ("bit 51 not compared", |it, _, row| {
        let top = 1 << 51;
        let moved = Region([row.0[0], row.0[1] & !top | it.start() & top]);
        right(it, &moved)
    }),
    ("32 bits of address", |it, _, row| {
        let bits = u32::MAX as u64;
        let moved = Region([row.0[0], row.0[1] & bits | it.start() & !bits]);
        right(it, &moved)
    }),
    ("bit 12 not compared", |it, _, row| {
        let moved = Region([row.0[0], row.0[1] & !0x1000 | it.start() & 0x1000]);
        right(it, &moved)
    }),
    ("nothing at address 0", |it, _, row| {
        right(it, row) && it.start() != 0
    }),
    ("nothing that ends at 2^52", |it, _, row| {
        right(it, row) && end(row) != ADDRESS
    }),
    ("a larger row that ends there", |it, _, row| {
        let ends = it.start() < end(row) && end(row) <= it.limit();
        right(it, row) || it.whole() && level(it, row) && ends
    }),
    ("512GB spared", |it, _, row| {
        right(it, row) && row.0[0] >> 2 != 9
    }),
    ("4KB spared, but by its own size", |it, _, row| {
        right(it, row) && (row.0[0] >> 2 != 0 || it.size() == 0)
    }),
    ("SIZE 9 takes nothing", |it, _, row| {
        right(it, row) && it.size() != 9
    }),
    ("SIZE 0 takes nothing", |it, _, row| {
        right(it, row) && it.size() != 0
    }),
];

/// Those of code 70, and those of both by the number of a row.
const ALL: [(&str, Takes); 13] = [
    ("70: nothing", |it, _, row| {
        it.code() == 0x73 && right(it, row)
    }),
    ("70: last-level rows alone", |it, _, row| {
        right(it, row) && (it.code() == 0x73 || row.last_level())
    }),
    ("70: rows of 4KB alone", |it, _, row| {
        right(it, row) && (it.code() == 0x73 || row.0[0] >> 2 == 0)
    }),
    ("70: not of 512GB", |it, _, row| {
        right(it, row) && (it.code() == 0x73 || row.0[0] >> 2 != 9)
    }),
    ("70: not from 2^51 on", |it, _, row| {
        right(it, row) && (it.code() == 0x73 || row.base() < 1 << 51)
    }),
    ("70: not from 512GB on", |it, _, row| {
        right(it, row) && (it.code() == 0x73 || row.base() < 1 << 39)
    }),
    ("70: only the lowest row", |it, at, row| {
        right(it, row) && (it.code() == 0x73 || at == 0)
    }),
    ("the table's last row is not looked at", |it, at, row| {
        right(it, row) && at + 1 < REGIONS as usize
    }),
    (
        "the table's last row is not looked at by 73",
        |it, at, row| right(it, row) && (it.code() == 0x70 || at + 1 < REGIONS as usize),
    ),
    (
        "the table's last row is not looked at by 70",
        |it, at, row| right(it, row) && (it.code() == 0x73 || at + 1 < REGIONS as usize),
    ),
    ("the table's first row is not looked at", |it, at, row| {
        right(it, row) && at > 0
    }),
    ("64 rows of the table", |it, at, row| {
        right(it, row) && at < 64
    }),
    ("100 rows of the table", |it, at, row| {
        right(it, row) && at < 100
    }),
];

/// Other sizes for the codes, of commands alone.
const OTHER_SIZES: [(&str, [u64; 10]); 12] = [
    ("16KB as 8KB", [12, 13, 16, 21, 25, 29, 30, 34, 36, 39]),
    ("64KB as 32KB", [12, 14, 15, 21, 25, 29, 30, 34, 36, 39]),
    ("2MB as 1MB", [12, 14, 16, 20, 25, 29, 30, 34, 36, 39]),
    ("2MB as 4MB", [12, 14, 16, 22, 25, 29, 30, 34, 36, 39]),
    ("32MB as 64MB", [12, 14, 16, 21, 26, 29, 30, 34, 36, 39]),
    ("512MB as 1GB", [12, 14, 16, 21, 25, 30, 30, 34, 36, 39]),
    ("1GB as 512MB", [12, 14, 16, 21, 25, 29, 29, 34, 36, 39]),
    ("1GB as 2GB", [12, 14, 16, 21, 25, 29, 31, 34, 36, 39]),
    ("16GB as 64GB", [12, 14, 16, 21, 25, 29, 30, 36, 36, 39]),
    ("64GB as 16GB", [12, 14, 16, 21, 25, 29, 30, 34, 34, 39]),
    ("512GB as 1TB", [12, 14, 16, 21, 25, 29, 30, 34, 36, 40]),
    ("512GB as 64GB", [12, 14, 16, 21, 25, 29, 30, 34, 36, 36]),
];

pub fn all() -> Vec<(String, Fault)> {
    let mut all = Vec::new();
    for (name, takes) in SOME {
        all.push((format!("73: {name}"), Fault::Some(takes)));
    }
    for (name, takes) in ALL {
        all.push((name.into(), Fault::Takes(takes)));
    }
    for (name, takes) in SIZED {
        all.push((format!("73: {name}"), Fault::Some(takes)));
    }
    all
}

/// A size is another one, of commands alone.
macro_rules! sized {
    ($($at:literal),*) => {
        [$((OTHER_SIZES[$at].0, |it: &Asked, _: usize, row: &Region| {
            by_sizes(it, row, &OTHER_SIZES[$at].1)
        })),*]
    };
}
const SIZED: [(&str, Takes); OTHER_SIZES.len()] = sized!(0, 1, 2, 3, 4, 5, 6, 7, 8, 9, 10, 11);

fn by_sizes(asked: &Asked, row: &Region, sizes: &[u64; 10]) -> bool {
    match sizes.get(asked.size() as usize) {
        None => false,
        Some(size) => {
            let (bytes, own) = (1 << size, end(row) - row.base());
            let whole = asked.start() % bytes == 0;
            whole && level(asked, row) && own <= bytes && within(row, asked.start(), bytes)
        }
    }
}

/// What a right unit does, of a row in use.
fn right(asked: &Asked, row: &Region) -> bool {
    let features = Features::from_bits(asked.features);
    match decode(asked.low, asked.high, features) {
        Ok(Effect::RemoveRegions(scope)) => scope.takes(row),
        _ => false,
    }
}

fn end(row: &Region) -> u64 {
    row.base() + row.size().unwrap_or(0)
}

fn holds(row: &Region, address: u64) -> bool {
    row.base() <= address && address < end(row)
}

fn within(row: &Region, start: u64, bytes: u64) -> bool {
    start <= row.base() && row.base() < start + bytes
}

fn fits(asked: &Asked, row: &Region) -> bool {
    row.0[0] >> 2 <= asked.size()
}

fn level(asked: &Asked, row: &Region) -> bool {
    row.last_level() || asked.high & 1 == 0
}

impl Asked {
    fn start(&self) -> u64 {
        self.high % ADDRESS >> 12 << 12
    }

    fn size(&self) -> u64 {
        self.high >> 8 & 15
    }

    /// 0 if SIZE is Reserved.
    fn bytes(&self) -> u64 {
        SIZES.get(self.size() as usize).map_or(0, |&size| 1 << size)
    }

    fn limit(&self) -> u64 {
        self.start() + self.bytes()
    }

    /// Whether the address is a multiple of a size that there is.
    fn whole(&self) -> bool {
        self.start().checked_rem(self.bytes()) == Some(0)
    }
}
