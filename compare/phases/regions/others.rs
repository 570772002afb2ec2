//! What every other call and every other command makes of the second table: nothing.

use super::{bytes, run, waiting, ALL, MIDDLE, ROW_CODES};
use crate::call::{Asked, Call};
use crate::checker::Checker;
use crate::generate::commands::{combinations, of_code, spoilt, Command, CODES, KNOWN};
use crate::generate::images::{image, table, with_rows};
use crate::generate::random::Random;
use crate::generate::ranges::reaching;
use crate::generate::regions::{about, any_region, region, with_regions, Pair};
use crate::generate::rows::{any_row, cd};
use crate::generate::world::World;
use crate::limits::REGIONS;
use crate::phases::single;

pub fn sweeps(checker: &mut Checker) {
    let mut random = checker.phase("regions: every other command beside a full table");
    for round in 0..6_000 {
        let world = World::new(&mut random);
        let code = CODES[round % CODES.len()];
        let command = reaching(of_code(&mut random, &world, code), 2);
        beside(checker, &mut random, &world, command);
    }
    checker.phase("regions: every other command at the addresses of the table");
    for code in CODES {
        for high in [0, 1, MIDDLE, MIDDLE | 1, MIDDLE | 9 << 8] {
            for features in [0, ALL, KNOWN, !0] {
                bare(checker, (code, high), features);
            }
        }
    }
    for features in combinations() {
        bare(checker, (0x30, 0), features);
        bare(checker, (0x20, 0), features);
    }
    let mut random = checker.phase("regions: 70 and 73 over any memory");
    for _ in 0..4_000 {
        own(checker, &mut random);
    }
    let mut random = checker.phase("regions: every other call beside any table");
    for index in (1..7).cycle().take(1_200) {
        let world = World::new(&mut random);
        let mut kept = image(&mut random, &world);
        single::any_call(checker, &mut random, &world, &mut kept, index);
    }
    every_call(checker);
}

/// A full table about the same pages as the rows; the laws see to what is stored.
fn beside(checker: &mut Checker, random: &mut Random, world: &World, command: Command) {
    let rows = table(random, world, 12);
    let mut kept = with_rows(waiting(0, 1), &rows);
    let regions: Vec<Pair> = (0..random.between(1, REGIONS))
        .map(|_| any_region(random, world))
        .collect();
    let queue = bytes(&[command]);
    let some = KNOWN & random.next();
    let features = random.pick(&[ALL, KNOWN, !0, some]);
    checker.both(
        &mut kept,
        &mut with_regions(&regions),
        run(&queue, features, u64::MAX),
    );
}

/// A code with its fields at 0, or in the places that 73 has.
fn bare(checker: &mut Checker, command: Command, features: u64) {
    let regions: Vec<Pair> = (0..ROW_CODES)
        .flat_map(|code| [region(code, true, MIDDLE), region(code, false, 0)])
        .collect();
    let mut kept = with_rows(waiting(0, 1), &super::bystanders(command.1));
    let queue = bytes(&[command]);
    let call = run(&queue, features, u64::MAX);
    checker.both(&mut kept, &mut with_regions(&regions), call);
}

/// 70, and 73 about a region that a row of the kept memory has as its input or output.
fn own(checker: &mut Checker, random: &mut Random) {
    let world = World::new(random);
    let rows: Vec<_> = (0..16).map(|_| any_row(random, &world)).collect();
    let [_, _, input, output] = random.pick(&rows);
    let size = random.below(10);
    let place = random.pick(&[input, output]);
    let command = match random.below(4) {
        0 => (0x70, 0),
        1 => spoilt(random, &world),
        _ => about(place >> 39 << 39, size, random.below(2)),
    };
    let regions: Vec<Pair> = (0..6).map(|_| any_region(random, &world)).collect();
    let mut kept = with_rows(waiting(0, 1), &rows);
    let queue = bytes(&[command]);
    let call = run(&queue, ALL, random.pick(&[0, 1, 2, u64::MAX]));
    checker.both(&mut kept, &mut with_regions(&regions), call);
}

/// Every call but runs and the table's own fills, beside a table in use and beside ones
/// that a run would refuse: they aren't passed it, and so do not.
fn every_call(checker: &mut Checker) {
    let asked = Asked {
        stream: 1,
        substream: 2,
        address: MIDDLE,
        how: 0,
        memattr: 15,
        sh: 3,
        hints: 0,
    };
    let calls = [
        Call::Fill {
            row: 1,
            words: cd(5, 6, 7),
            allowance: u64::MAX,
        },
        Call::Doorbell { wr: 1 },
        Call::Acknowledge,
        Call::Enable { on: 1 },
        Call::Translate(asked),
        Call::State,
        Call::ClearPending,
    ];
    let tables: [&[u64]; 5] = [&[1, MIDDLE, 3, 0], &[0, 0], &[2, 2], &[1; 3], &[]];
    for table in tables {
        for call in calls {
            let mut kept = with_rows(waiting(0, 0), &[cd(1, 2, 3), [0; 4]]);
            let reply = checker.both(&mut kept, &mut table.to_vec(), call);
            let law = "a call that isn't passed the second table refuses it";
            let met = !matches!(reply.number, 13 | 14);
            checker.insist(met, law, &kept, call, (reply, &kept));
        }
    }
}
