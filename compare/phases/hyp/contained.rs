//! How the commands' scopes lie in each other, over memories by chance.

use super::{insist, taken, SETTINGS};
use crate::checker::Checker;
use crate::generate::commands::of_code;
use crate::generate::images::table;
use crate::generate::random::Random;
use crate::generate::rows::Words;
use crate::generate::world::World;

pub fn sweeps(checker: &mut Checker) {
    let mut random = checker.phase("hypervisor: scopes that lie in each other");
    for _ in 0..800 {
        let world = World::new(&mut random);
        let rows = table(&mut random, &world, 24);
        within(checker, &mut random, &world, &rows);
    }
}

/// What one ASID, address and Leaf take at both settings of E2H.
fn within(checker: &mut Checker, random: &mut Random, world: &World, rows: &[Words]) {
    let (low, high) = of_code(random, world, 0x22);
    let asid = low & !0xFF;
    let commands = [
        (0x20, 0),
        (0x21 | asid, 0),
        (0x22 | asid, high),
        (0x23, high),
        (0x22 | asid, high & !1),
        (0x23, high & !1),
    ];
    let at = |checker: &mut Checker, features| {
        commands.map(|command| taken(checker, rows, command, features).0)
    };
    let [without, with] = SETTINGS.map(|features| at(checker, features));
    let last = (commands[2], SETTINGS[1]);
    let mut law = |holds: bool, law: &str| insist(checker, holds, law, rows, last);
    for sets in [&without, &with] {
        let [all, space, page, any, page_all, any_all] = sets;
        let each = [space, page, any, page_all, any_all];
        law(
            each.iter().all(|set| less(set, all)),
            "20 takes less than another",
        );
        law(
            less(page, any) && less(page_all, any_all),
            "23 takes less than 22",
        );
        law(
            less(page, page_all) && less(any, any_all),
            "Leaf takes more",
        );
        law(less(all, &owned(rows)), "a row without a mark is taken");
    }
    law(without[..2] == with[..2], "20 or 21 looks at E2H");
    law(without[2] == without[3], "22 looks at the ASID without E2H");
    let apart = |set: usize| !meet(&without[set], &with[set]);
    law(apart(3) && apart(5), "23 takes a row at either E2H");
}

fn owned(rows: &[Words]) -> Vec<bool> {
    rows.iter().map(|row| row[0] >> 11 & 3 != 0).collect()
}

fn less(one: &[bool], other: &[bool]) -> bool {
    one.iter().zip(other).all(|(one, other)| other >= one)
}

fn meet(one: &[bool], other: &[bool]) -> bool {
    one.iter().zip(other).any(|(one, other)| *one && *other)
}
