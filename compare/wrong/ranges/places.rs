//! Ranges that start or end elsewhere, rows that lie otherwise to them, and hints
//! that narrow them.

use super::{Asked, Fault};
use crate::generate::commands::RANGED;
use crate::limits::ADDRESS;
use crate::model::range::Fields;
use crate::model::row::Row;

type Lies = fn(&Asked, &Row) -> bool;

/// Those that one code alone may have too.
const EACH: [(&str, Lies); 5] = [
    ("the address alone", |asked, row| {
        row.covers(asked.address())
    }),
    ("only the first granule", |asked, row| {
        let first = asked.first();
        meets(row, first, first + asked.granule())
    }),
    ("wraps", |asked, row| {
        let end = asked.end();
        right(asked, row) || end > asked.top() && meets(row, 0, end - asked.top())
    }),
    ("a row that ends there", |asked, row| {
        meets(row, asked.first().saturating_sub(1), asked.clipped())
    }),
    ("a row that begins there", |asked, row| {
        meets(row, asked.first(), asked.clipped() + 1)
    }),
];

const OTHERS: [(&str, Lies); 43] = [
    ("NUM for NUM + 1", |asked, row| {
        asked.of_granules(row, u128::from(asked.range().num) << asked.range().scale)
    }),
    ("NUM + 2", |asked, row| {
        asked.of_granules(
            row,
            u128::from(asked.range().num + 2) << asked.range().scale,
        )
    }),
    ("NUM of four bits", |asked, row| {
        let num = asked.range().num % 16;
        asked.of_granules(row, u128::from(num + 1) << asked.range().scale)
    }),
    ("NUM not read", |asked, row| {
        asked.of_granules(row, 1 << asked.range().scale)
    }),
    ("SCALE as a factor", |asked, row| {
        let factor = asked.range().scale.max(1);
        asked.of_granules(row, u128::from((asked.range().num + 1) * factor))
    }),
    ("SCALE as a PE has it", |asked, row| {
        let scale = (5 * asked.range().scale + 1).min(60);
        asked.of_granules(row, u128::from(asked.range().num + 1) << scale)
    }),
    ("SCALE of four bits", |asked, row| {
        let scale = asked.range().scale % 16;
        asked.of_granules(row, u128::from(asked.range().num + 1) << scale)
    }),
    ("SCALE not read", |asked, row| {
        asked.of_granules(row, u128::from(asked.range().num + 1))
    }),
    ("NUM and SCALE exchanged", |asked, row| {
        let Fields { num, scale, .. } = asked.range();
        asked.of_granules(row, u128::from(scale + 1) << num)
    }),
    ("NUM times 2^SCALE, and one more", |asked, row| {
        let Fields { num, scale, .. } = asked.range();
        asked.of_granules(row, (u128::from(num) << scale) + 1)
    }),
    ("granules of 32 bits", |asked, row| {
        asked.of_granules(row, asked.granules() % (1 << 32))
    }),
    ("SCALE above 30 as 30", |asked, row| {
        let scale = asked.range().scale.min(30);
        asked.of_granules(row, u128::from(asked.range().num + 1) << scale)
    }),
    ("one page too many", |asked, row| {
        meets(row, asked.first(), asked.clipped() + 0x1000)
    }),
    ("one page too few", |asked, row| {
        meets(row, asked.first(), asked.clipped() - 0x1000)
    }),
    ("one page before", |asked, row| {
        let first = asked.first().saturating_sub(0x1000);
        meets(row, first, asked.clipped())
    }),
    ("TG 1: 16 KiB", |asked, row| {
        asked.by_granule(row, [14, 14, 16])
    }),
    ("TG 2: 4 KiB", |asked, row| {
        asked.by_granule(row, [12, 12, 16])
    }),
    ("TG 2: 64 KiB", |asked, row| {
        asked.by_granule(row, [12, 16, 16])
    }),
    ("TG 3: 16 KiB", |asked, row| {
        asked.by_granule(row, [12, 14, 14])
    }),
    ("TG 3: 4 KiB", |asked, row| {
        asked.by_granule(row, [12, 14, 12])
    }),
    ("TG 2 and 3 exchanged", |asked, row| {
        asked.by_granule(row, [12, 16, 14])
    }),
    ("TG 3: 32 KiB", |asked, row| {
        asked.by_granule(row, [12, 14, 15])
    }),
    ("the start rounded up", |asked, row| {
        let granule = asked.granule();
        let first = u128::from(asked.address()).div_ceil(granule) * granule;
        meets(row, first, (first + asked.length()).min(1 << 64))
    }),
    ("the start not rounded", |asked, row| {
        let first = u128::from(asked.address());
        meets(row, first, (first + asked.length()).min(1 << 64))
    }),
    ("the start not rounded, but for the end", |asked, row| {
        meets(row, asked.address().into(), asked.clipped())
    }),
    ("the end from the address", |asked, row| {
        let end = u128::from(asked.address()) + asked.length();
        meets(row, asked.first(), end.min(1 << 64))
    }),
    ("the start rounded to the length", |asked, row| {
        let length = asked.length();
        let first = asked.first() / length * length;
        meets(row, first, (first + length).min(1 << 64))
    }),
    ("the start rounded to 2^SCALE granules", |asked, row| {
        let unit = asked.granule() << asked.range().scale;
        let first = asked.first() / unit * unit;
        meets(row, first, (first + asked.length()).min(1 << 64))
    }),
    ("nothing beyond the top", |asked, row| {
        right(asked, row) && asked.end() <= 1 << 64
    }),
    ("nothing at the top", |asked, row| {
        right(asked, row) && asked.end() != 1 << 64
    }),
    ("no last page of the space", |asked, row| {
        let end = asked.clipped().min((1 << 64) - 0x1000);
        meets(row, asked.first(), end)
    }),
    ("a row's end wraps", |asked, row| {
        right(asked, row) && row.last() != u64::MAX
    }),
    ("ends with the half", |asked, row| {
        let end = (asked.first() / HALF + 1) * HALF;
        meets(row, asked.first(), asked.clipped().min(end))
    }),
    ("by 52 bits of address", |asked, row| {
        let first = asked.first() % HALF;
        let input = u128::from(row.input()) % HALF;
        let end = first + asked.length();
        input < end && first < input + (1 << row.span())
    }),
    ("rows within only", |asked, row| {
        right(asked, row) && asked.first() <= from(row) && to(row) <= asked.end()
    }),
    ("rows that begin within only", |asked, row| {
        right(asked, row) && asked.first() <= from(row)
    }),
    ("rows that end within only", |asked, row| {
        right(asked, row) && to(row) <= asked.end()
    }),
    ("no rows around it", |asked, row| {
        right(asked, row) && (asked.first() <= from(row) || to(row) <= asked.end())
    }),
    ("one granule as the address", |asked, row| {
        match asked.granules() {
            1 => row.covers(asked.address()),
            _ => right(asked, row),
        }
    }),
    (
        "one granule of 16 KiB as the address",
        |asked, row| match (asked.granules(), asked.range().tg) {
            (1, 2) => row.covers(asked.address()),
            _ => right(asked, row),
        },
    ),
    (
        "one granule of 64 KiB as the address",
        |asked, row| match (asked.granules(), asked.range().tg) {
            (1, 3) => row.covers(asked.address()),
            _ => right(asked, row),
        },
    ),
    ("the granule of the rows", |asked, row| {
        right(asked, row) && asked.granule() <= 1 << row.span()
    }),
    ("nothing from the lower half on", |asked, row| {
        right(asked, row) && !(asked.first() < HALF && asked.end() > HALF)
    }),
];

const HINTS: [(&str, Lies); 11] = [
    ("TTL: last-level rows only", |asked, row| {
        right(asked, row) && (asked.range().ttl == 0 || row.last_level())
    }),
    ("TTL 0: last-level rows only", |asked, row| {
        right(asked, row) && (asked.range().ttl != 0 || row.last_level())
    }),
    ("TTL 1 takes nothing", |asked, row| {
        right(asked, row) && asked.range().ttl != 1
    }),
    ("TTL 1 of 16 KiB takes nothing", |asked, row| {
        right(asked, row) && (asked.range().tg, asked.range().ttl) != (2, 1)
    }),
    ("TTL 3: single granules only", |asked, row| {
        let single = 1 << row.span() <= asked.granule();
        right(asked, row) && (asked.range().ttl != 3 || single)
    }),
    ("TTL 2: blocks of its level only", |asked, row| {
        let level = [0, 21, 25, 29][asked.range().tg as usize];
        right(asked, row) && (asked.range().ttl != 2 || row.span() == level)
    }),
    ("TTL 1: blocks of its level only", |asked, row| {
        let level = [0, 30, 36, 42][asked.range().tg as usize];
        right(asked, row) && (asked.range().ttl != 1 || row.span() == level)
    }),
    ("TTL 2: an address within a block", |asked, row| {
        let block = 1 << [0, 21, 25, 29][asked.range().tg as usize];
        right(asked, row) && (asked.range().ttl != 2 || asked.address() % block == 0)
    }),
    ("TTL 1: an address within a block", |asked, row| {
        let block = 1 << [0, 30, 36, 42][asked.range().tg as usize];
        right(asked, row) && (asked.range().ttl != 1 || asked.address() % block == 0)
    }),
    ("TTL 3: an address within a granule", |asked, row| {
        let whole = u128::from(asked.address()) == asked.first();
        right(asked, row) && (asked.range().ttl != 3 || whole)
    }),
    ("TTL128 takes nothing", |asked, row| {
        right(asked, row) && !asked.range().ttl128
    }),
];

const HALF: u128 = ADDRESS as u128;

pub fn all() -> Vec<(String, Fault)> {
    let mut all = Vec::new();
    for (name, lies) in OTHERS.into_iter().chain(EACH) {
        all.push((format!("ranges: {name}"), Fault::Lies(&RANGED, lies)));
    }
    for (name, lies) in HINTS {
        all.push((format!("ranges, {name}"), Fault::Lies(&RANGED, lies)));
    }
    for code in 0..RANGED.len() {
        for (name, lies) in EACH {
            let codes = &RANGED[code..=code];
            let name = format!("{:02X} with a range: {name}", RANGED[code]);
            all.push((name, Fault::Lies(codes, lies)));
        }
    }
    all
}

/// Whether the row has an address from the first one to before the end.
fn meets(row: &Row, first: u128, end: u128) -> bool {
    from(row) < end && first < to(row)
}

fn from(row: &Row) -> u128 {
    row.input().into()
}

fn to(row: &Row) -> u128 {
    from(row) + (1 << row.span())
}

/// What a right unit does.
fn right(asked: &Asked, row: &Row) -> bool {
    meets(row, asked.first(), asked.clipped())
}

impl Asked {
    fn range(&self) -> Fields {
        Fields::of(self.low, self.high)
    }

    fn address(&self) -> u64 {
        self.high >> 12 << 12
    }

    fn granule(&self) -> u128 {
        1 << [12, 14, 16][self.range().tg as usize - 1]
    }

    fn granules(&self) -> u128 {
        u128::from(self.range().num + 1) << self.range().scale
    }

    fn length(&self) -> u128 {
        self.granules() * self.granule()
    }

    fn first(&self) -> u128 {
        u128::from(self.address()) / self.granule() * self.granule()
    }

    /// The end as it is, which may lie beyond the space.
    fn end(&self) -> u128 {
        self.first() + self.length()
    }

    fn clipped(&self) -> u128 {
        self.end().min(1 << 64)
    }

    /// The end of the addresses that the command may have.
    fn top(&self) -> u128 {
        match self.low & 0xFF {
            0x2A => HALF,
            _ => 1 << 64,
        }
    }

    /// Another length.
    fn of_granules(&self, row: &Row, granules: u128) -> bool {
        let end = self.first() + granules * self.granule();
        meets(row, self.first(), end.min(1 << 64))
    }

    /// Other granules, as powers of two.
    fn by_granule(&self, row: &Row, granules: [u64; 3]) -> bool {
        let granule = 1u128 << granules[self.range().tg as usize - 1];
        let first = u128::from(self.address()) / granule * granule;
        let end = first + self.granules() * granule;
        meets(row, first, end.min(1 << 64))
    }
}
