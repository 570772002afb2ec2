//! Sweeps over commands: every code, every bit, every range and span.

use super::{bytes, waiting};
use crate::call::{Asked, Call};
use crate::checker::Checker;
use crate::generate::commands::{combinations, of_code, settings, CODES};
use crate::generate::images::{table, with_rows};
use crate::generate::random::Random;
use crate::generate::rows::{
    cd, reach, stage_payload, ste, ste_block, Reach, Words, STAGE1, STAGE2,
};
use crate::generate::world::World;
use crate::limits::{ADDRESS, BLOCKS, SPANS};

pub fn sweeps(checker: &mut Checker) {
    codes(checker);
    bits(checker);
    ranges(checker);
    pages(checker);
}

/// One command alone in its queue, over the rows.
fn one(checker: &mut Checker, rows: &[Words], command: (u64, u64), features: u64) {
    let mut kept = with_rows(waiting(0, 1), rows);
    let queue = bytes(&[command]);
    checker.call(
        &mut kept,
        Call::Run {
            queue: &queue,
            features,
            allowance: u64::MAX,
        },
    );
}

fn codes(checker: &mut Checker) {
    let mut random = checker.phase("every code under every feature");
    for code in 0..256 {
        let world = World::new(&mut random);
        let rows = table(&mut random, &world, 12);
        for features in combinations() {
            one(checker, &rows, (code, 0), features);
        }
    }
}

/// Each bit above the code, flipped in a bare command or in one with its fields.
fn bits(checker: &mut Checker) {
    let mut random = checker.phase("every bit of every command under every feature");
    for code in CODES {
        for bit in 8..128 {
            let world = World::new(&mut random);
            let rows = table(&mut random, &world, 16);
            let bare = random.once_in(2);
            let (low, high) = if bare {
                (code, 0)
            } else {
                of_code(&mut random, &world, code)
            };
            let command = if bit < 64 {
                (low ^ 1 << bit, high)
            } else {
                (low, high ^ 1 << (bit - 64))
            };
            let setting = settings(&mut random);
            for features in 0..16 {
                one(checker, &rows, command, features | setting);
            }
        }
    }
}

/// Code 04 at every range, and 03, over streams that differ in a single bit.
fn ranges(checker: &mut Checker) {
    let mut random = checker.phase("every range over every stream bit");
    for base in [
        0,
        0xFFFF_FFFF,
        random.next() & 0xFFFF_FFFF,
        random.next() & 0xFFFF_FFFF,
    ] {
        let span = random.pick(&BLOCKS);
        let rows: Vec<Words> = (0..32)
            .map(|bit| base ^ 1 << bit)
            .flat_map(|near| [ste(near, 0, 4, 0), cd(near, 0, 0), ste_block(near, span)])
            .collect();
        for range in 0..32 {
            one(checker, &rows, (base << 32 | 0x04, range), 0b1111);
        }
        for leaf in 0..2 {
            one(checker, &rows, (base << 32 | 0x03, leaf), 0b1111);
        }
    }
}

/// Commands and transactions at both edges of rows of every span.
fn pages(checker: &mut Checker) {
    let mut random = checker.phase("every span at its edges");
    for span in SPANS {
        let world = World::new(&mut random);
        let first = Reach {
            span,
            global: false,
            ..reach(&mut random, &world, STAGE1)
        };
        let second = Reach {
            kind: STAGE2,
            page: first.page % ADDRESS,
            ..first
        };
        let rows = rows_at(&mut random, &world, first, second);
        let start = first.page >> span << span;
        let last = start + ((1 << span) - 1);
        for address in [
            start.wrapping_sub(1),
            start,
            start + (1 << (span - 1)),
            last,
            last.wrapping_add(1),
        ] {
            by_address(checker, &rows, first, address);
            through(checker, &rows, address);
        }
    }
}

/// Each command that has an address, with Leaf and without.
fn by_address(checker: &mut Checker, rows: &[Words], first: Reach, address: u64) {
    let page = address & !0xFFF;
    let vmid = first.vmid << 32;
    for leaf in 0..2 {
        one(
            checker,
            rows,
            (0x12 | vmid | first.asid << 48, page | leaf),
            0b1111,
        );
        one(checker, rows, (0x13 | vmid, page | leaf), 0b1111);
        one(checker, rows, (0x2A | vmid, page % ADDRESS | leaf), 0b1111);
    }
}

/// A transaction by way of each Config.
fn through(checker: &mut Checker, rows: &[Words], address: u64) {
    let mut kept = with_rows(waiting(0, 0), rows);
    for stream in 4..8 {
        let (substream, how, memattr, sh, hints) = (0, 0, 15, 0, 0o33);
        let asked = Asked {
            stream,
            substream,
            address,
            how,
            memattr,
            sh,
            hints,
        };
        checker.call(&mut kept, Call::Translate(asked));
    }
}

/// Rows of both stages and levels at one place, between rows of the same world;
/// stream n goes through Config n.
fn rows_at(random: &mut Random, world: &World, first: Reach, second: Reach) -> Vec<Words> {
    let mut rows = vec![first.table(), second.table()];
    rows.push(first.page(second.page, stage_payload(random, STAGE1)));
    rows.push(second.page(world.page(random), stage_payload(random, STAGE2)));
    rows.extend((4..8).map(|config| ste(config, first.vmid, config, 1 << 5)));
    rows.extend((4..8).map(|config| cd(config, 0, first.asid)));
    rows.extend(table(random, world, 6));
    rows
}
