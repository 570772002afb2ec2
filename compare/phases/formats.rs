//! Sweeps over the formats of the kept memory, and over its length.

use super::waiting;
use crate::call::Call;
use crate::checker::Checker;
use crate::generate::images::{self, control, with_rows};
use crate::generate::random::Random;
use crate::generate::rows::{self, cd, cd_table, marked, ste, ste_block, Reach, Words};
use crate::generate::rows::{EL2, EL2_E2H, STAGE1, STAGE2};
use crate::generate::world::World;
use crate::limits::{words, ADDRESS, BLOCKS, ROWS};
use crate::phases::single::any_call;

pub fn sweeps(checker: &mut Checker) {
    flips(checker);
    payloads(checker);
    spans(checker);
    lengths(checker);
}

/// A well-formed row of each kind and level, and of each mark.
fn samples(random: &mut Random, world: &World) -> [Words; 12] {
    let stream = world.stream(random);
    let first = rows::reach(random, world, STAGE1);
    let second = rows::reach(random, world, STAGE2);
    let page = first.page(world.page(random), rows::stage_payload(random, STAGE1));
    [
        ste(
            stream,
            world.vmid(random),
            random.pick(&[0, 4, 5, 6, 7]),
            rows::ste_payload(random),
        ),
        ste_block(stream, random.pick(&BLOCKS)),
        cd(stream, world.substream(random), world.asid(random)),
        cd_table(stream),
        page,
        first.table(),
        marked(page, EL2),
        marked(first.table(), EL2),
        marked(page, EL2_E2H),
        marked(first.table(), EL2_E2H),
        second.page(world.page(random), rows::stage_payload(random, STAGE2)),
        second.table(),
    ]
}

/// Fills row 0 of a table whose only row is empty.
fn fill(checker: &mut Checker, words: Words) {
    let mut kept = with_rows(waiting(0, 0), &[[0; 4]]);
    checker.call(
        &mut kept,
        Call::Fill {
            row: 0,
            words,
            allowance: u64::MAX,
        },
    );
}

/// Each bit of an accepted memory, and of four words to be filled in.
fn flips(checker: &mut Checker) {
    let mut random = checker.phase("every single bit of the memory");
    for _ in 0..4 {
        let world = World::new(&mut random);
        let rows = samples(&mut random, &world);
        let size = images::any_size(&mut random);
        let kept = with_rows(control(&mut random, size), &rows);
        for place in 0..kept.len() {
            for bit in 0..64 {
                let mut flipped = kept.clone();
                flipped[place] ^= 1 << bit;
                checker.call(&mut flipped, Call::State);
            }
        }
        for (row, bit) in rows
            .iter()
            .flat_map(|row| (0..256).map(move |bit| (row, bit)))
        {
            let mut words = *row;
            words[bit / 64] ^= 1 << (bit % 64);
            fill(checker, words);
        }
    }
}

/// Every payload of a stage row within its bits, and others by chance.
fn payloads(checker: &mut Checker) {
    let mut random = checker.phase("payloads and Configs");
    let reach = Reach {
        kind: STAGE1,
        vmid: 1,
        asid: 2,
        global: true,
        span: 12,
        page: 0x1000,
    };
    let second = Reach {
        kind: STAGE2,
        ..reach
    };
    for payload in 0..1 << 12 {
        fill(checker, reach.page(0, payload));
        let [word, rest @ ..] = ste(3, 4, 5, 0);
        fill(checker, [word | random.next() >> 48 << 48, rest[0], 0, 0]);
    }
    for payload in 0..1 << 8 {
        fill(checker, second.page(0, payload));
        fill(checker, second.page(0, payload | random.next() >> 48));
    }
    for (config, memattr) in (0..8).flat_map(|config| (0..16).map(move |memattr| (config, memattr)))
    {
        fill(checker, ste(3, 4, config, memattr << 1));
        fill(checker, ste(3, 4, config, memattr << 1 | 1));
    }
}

/// Every span against words with a single bit set, and around the limit 2^52.
fn spans(checker: &mut Checker) {
    checker.phase("every span against every alignment");
    let reach = Reach {
        kind: STAGE1,
        vmid: 1,
        asid: 2,
        global: false,
        span: 0,
        page: 0,
    };
    for span in 0..64 {
        for bit in 0..64 {
            let one = 1u64 << bit;
            for kind in [STAGE1, STAGE2] {
                let [word, ..] = Reach {
                    kind,
                    span,
                    ..reach
                }
                .page(0, 0);
                fill(checker, [word, 0, one, 0]);
                fill(checker, [word, 0, 0, one]);
                fill(checker, [word & !8, 0, one, 0]);
            }
            fill(checker, [1 | span << 5, one, 0, 0]);
        }
        let [word, ..] = Reach { span, ..reach }.page(0, 0);
        for edge in [
            ADDRESS - 1,
            ADDRESS >> span << span,
            (ADDRESS - 1) >> span << span,
        ] {
            fill(checker, [word, 0, edge, 0]);
            fill(checker, [word, 0, 0, edge]);
        }
    }
}

/// Lengths on both sides of each limit, by every call.
fn lengths(checker: &mut Checker) {
    let mut random = checker.phase("lengths of the memory");
    let world = World::new(&mut random);
    let largest = words(ROWS);
    let around = largest - 13..=largest + 17;
    for length in (0..=30)
        .chain(around)
        .chain([words(2 * ROWS), words(4 * ROWS)])
    {
        for index in 0..7 {
            let rows = images::table(&mut random, &world, length / 4 + 1);
            let mut kept = with_rows(control(&mut random, 2), &rows);
            kept.truncate(length);
            any_call(checker, &mut random, &world, &mut kept, index);
            // The eighth call takes no draw, so that the others stay as they were.
            checker.call(&mut kept, Call::ClearPending);
        }
    }
}
