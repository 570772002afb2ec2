//! Single pages merged into ranges (document 02, T-07): exactly, too far, not far enough,
//! elsewhere.

use super::samples::{control, ASID, VMID};
use super::{bytes, related, says, Image, ALL};
use crate::call::{Reply, YES};
use crate::checker::Checker;
use crate::generate::commands::{Command, E2H};
use crate::generate::images::with_rows;
use crate::generate::ranges::Range;
use crate::generate::rows::{marked, Reach, Words, EL2, EL2_E2H, STAGE1, STAGE2};
use crate::limits::{ADDRESS, UPPER};

const PAGE: u64 = 0x1000;

pub fn sweeps(checker: &mut Checker) {
    checker.phase("check: pages merged into ranges");
    for code in [0x12, 0x13, 0x22, 0x23, 0x2A] {
        let starts = [
            0x40_0000,
            0,
            ADDRESS - 40 * PAGE,
            UPPER,
            0u64.wrapping_sub(40 * PAGE),
        ];
        for start in starts.into_iter().take(if code == 0x2A { 3 } else { 5 }) {
            for count in [1, 2, 3, 4, 7, 8, 16, 31, 32] {
                for e2h in [0, E2H] {
                    pages(checker, code, start, count, ALL | e2h);
                }
            }
        }
    }
    checker.phase("check: ranges of other granules and scales");
    for (tg, scale) in (1..4).flat_map(|tg| [0, 1, 2, 5].map(|scale| (tg, scale))) {
        scaled(checker, tg, scale);
    }
}

/// Rows for the pages from one before the start to two behind, as the code takes them:
/// last-level, and above the last one a table row.
fn image(code: u64, start: u64, count: u64, features: u64) -> Image {
    let row = |number: u64| {
        let reach = Reach {
            kind: if code == 0x2A { STAGE2 } else { STAGE1 },
            vmid: VMID,
            asid: ASID + number % 2 * u64::from(number == count + 1),
            global: number % 5 == 4,
            span: 12,
            page: start.wrapping_add((number * PAGE).wrapping_sub(PAGE)),
        };
        let row: Words = match number % 7 {
            6 => reach.table(),
            _ => reach.page(0, 15),
        };
        match code {
            0x22 | 0x23 if features & E2H == 0 => marked(row, EL2),
            0x22 | 0x23 => marked(row, EL2_E2H),
            _ => row,
        }
    };
    // Nothing comes before address 0, and nothing behind the last one of a half.
    let inside = |row: &Words| {
        let high = row[2] >> 52;
        high == 0 || high == 0xFFF && code != 0x2A
    };
    let rows: Vec<Words> = (0..count + 3).map(row).filter(inside).collect();
    Image {
        kept: with_rows(control(count), &rows),
        table: vec![0, 0],
        features,
    }
}

fn command(code: u64, address: u64, leaf: u64) -> Command {
    let vmid = if code == 0x22 || code == 0x23 {
        0
    } else {
        VMID << 32
    };
    let asid = if code == 0x12 || code == 0x22 {
        ASID << 48
    } else {
        0
    };
    (code | vmid | asid, address | leaf)
}

/// So many pages one by one, and proposals for them.
fn pages(checker: &mut Checker, code: u64, start: u64, count: u64, features: u64) {
    let image = image(code, start, count, features);
    let at = |number: u64| start.wrapping_add(number * PAGE);
    let singles: Vec<Command> = (0..count)
        .map(|number| command(code, at(number), 0))
        .collect();
    let original = bytes(&singles);
    let over = |from: u64, pages: u64, leaf: u64| match pages {
        0 => vec![],
        _ => vec![Range::new(1, pages - 1, 0).over(command(code, from, leaf))],
    };
    let exact = bytes(&over(start, count, 0));
    says(checker, &image, [&original, &exact], [YES, 0, 0]);
    let half = count / 2;
    let halves = [over(start, half, 0), over(at(half), count - half, 0)].concat();
    says(checker, &image, [&original, &bytes(&halves)], [YES, 0, 0]);
    let mut tell = |proposed: &[Command]| -> Reply {
        let proposed = bytes(proposed);
        related(checker, &image, &original, &proposed)
    };
    tell(&over(start, (count + 1).min(32), 0));
    tell(&over(start, count - 1, 0));
    tell(&over(at(1), count, 0));
    tell(&over(start.wrapping_sub(PAGE) & mask(code), count, 0));
    tell(&over(start, count, 1));
    tell(&over(start ^ 1 << 40, count, 0));
    let [(low, high)] = over(start, count, 0)[..] else {
        return;
    };
    for bit in [32, 33, 48, 49, 12, 20] {
        tell(&[(low ^ 1 << bit, high)]);
    }
    tell(&[(low, high ^ 3 << 10)]);
    tell(&[(low, high & !(3 << 8))]);
    tell(&[(low, high | 1 << 7)]);
    let other = match code {
        0x12 => 0x13,
        0x13 => 0x12,
        0x22 => 0x23,
        0x23 => 0x22,
        _ => 0x13,
    };
    tell(&over_code(low, high, other));
}

/// The address bits that the code has.
fn mask(code: u64) -> u64 {
    if code == 0x2A {
        ADDRESS - 1
    } else {
        u64::MAX
    }
}

fn over_code(low: u64, high: u64, code: u64) -> Vec<Command> {
    vec![(low & !0xFF | code, high)]
}

/// Ranges of 2^SCALE granules against the pages at their ends.
fn scaled(checker: &mut Checker, tg: u64, scale: u64) {
    let granule = PAGE << (2 * (tg - 1));
    let start = 0x8000_0000;
    let reach = |page: u64| Reach {
        kind: STAGE1,
        vmid: VMID,
        asid: ASID,
        global: false,
        span: 12,
        page,
    };
    for num in [0, 1, 2, 31] {
        let end = start + ((num + 1) << scale) * granule;
        let edges = [start - PAGE, start, start + PAGE, end - PAGE, end];
        let rows: Vec<Words> = edges.iter().map(|&page| reach(page).page(0, 15)).collect();
        let image = Image {
            kept: with_rows(control(num), &rows),
            table: vec![0, 0],
            features: ALL,
        };
        let inside = edges.iter().filter(|&&page| page >= start && page < end);
        let singles: Vec<Command> = inside.map(|&page| command(0x12, page, 0)).collect();
        let original = bytes(&singles);
        let range = Range::new(tg, num, scale);
        let whole = bytes(&[range.over(command(0x12, start, 0))]);
        says(checker, &image, [&original, &whole], [YES, 0, 0]);
        // From an address within the first granule it is the same range.
        let within = bytes(&[range.over(command(0x12, start + granule - PAGE, 0))]);
        says(checker, &image, [&original, &within], [YES, 0, 0]);
        for (num, scale) in [(num ^ 1, scale), (num, scale + 1), (num, scale ^ 1)] {
            let other = Range::new(tg, num, scale).over(command(0x12, start, 0));
            related(checker, &image, &original, &bytes(&[other]));
        }
        let before = bytes(&[range.over(command(0x12, start - granule, 0))]);
        related(checker, &image, &original, &before);
    }
}
