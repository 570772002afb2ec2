//! Transactions in memories with marked rows: these answer nothing and hide nothing.

use super::forms::own;
use super::{first, waiting, ASID, PAGE, WRITE_BACK};
use crate::call::{Asked, Call};
use crate::checker::Checker;
use crate::generate::images::{image, with_rows};
use crate::generate::random::Random;
use crate::generate::rows::{cd, marked, reach, stage_payload, ste, Reach, Words};
use crate::generate::rows::{MARKS, STAGE1, STAGE2};
use crate::generate::transactions::aimed;
use crate::generate::world::World;
use crate::limits::UPPER;
use crate::model::image::{place, rows};
use crate::model::row::{Kind, Row};

/// SHCFG 1: the shareability stays as it comes in.
const AS_IT_COMES: u64 = 1 << 5;
/// What stage 1 gives.
const OUTPUT: u64 = 0x60_0000;

pub fn sweeps(checker: &mut Checker) {
    checker.phase("hypervisor: transactions above, below and without marked rows");
    for page in [PAGE, PAGE | UPPER] {
        for (span, global) in [(12, false), (12, true), (21, false), (21, true)] {
            around(checker, page, span, global);
        }
    }
    let mut random = checker.phase("hypervisor: a marked row in an empty place");
    for _ in 0..3_000 {
        let world = World::new(&mut random);
        let kept = image(&mut random, &world);
        added(checker, &mut random, &world, &kept);
    }
}

const LAW: &str = "a marked row makes a difference to a transaction";

/// The same transaction in two memories, with the same answer.
fn alike(checker: &mut Checker, one: &[u64], other: &[u64], call: Call) {
    let reply = checker.call(&mut one.to_vec(), call);
    let mut kept = other.to_vec();
    let second = checker.call(&mut kept, call);
    checker.insist(reply == second, LAW, other, call, (second, &kept));
}

fn asked(config: u64, address: u64) -> Call<'static> {
    Call::Translate(Asked {
        stream: config as u32,
        substream: 0,
        address,
        how: 0,
        memattr: WRITE_BACK,
        sh: 0,
        hints: 0o33,
    })
}

/// An STE and a CD row for each Config, and stage 2 rows for what comes in and for
/// what stage 1 gives. Stream n goes through Config n.
fn chain() -> Vec<Words> {
    let mut rows: Vec<Words> = (4..8)
        .map(|config| ste(config, 0, config, AS_IT_COMES))
        .collect();
    rows.extend((4..8).map(|config| cd(config, 0, ASID)));
    let second = |page| Reach {
        kind: STAGE2,
        ..first(21, page)
    };
    rows.extend([OUTPUT, PAGE].map(|page| second(page).page(2 * page, WRITE_BACK)));
    rows
}

/// Every row that the hypervisor may have at the page, below the guest's row, above
/// it, and without it.
fn around(checker: &mut Checker, page: u64, span: u64, global: bool) {
    let rest = chain();
    let guest = Reach {
        global,
        ..first(span, page)
    };
    let guest = [guest.page(OUTPUT, WRITE_BACK)];
    let ours = [own(12, page), own(21, page)].concat();
    let gone = vec![[0; 4]; ours.len()];
    let orders = |ours: &[Words]| {
        [
            [ours, &rest, &guest].concat(),
            [&rest[..], &guest, ours].concat(),
            [ours, &rest, &[[0; 4]]].concat(),
            [&rest[..], ours, &guest].concat(),
        ]
    };
    for (with, without) in orders(&ours).iter().zip(orders(&gone)) {
        let [with, without] = [with, &without].map(|rows| with_rows(waiting(0, 0), rows));
        for config in 4..8 {
            for address in [page, page + 0xFFF, page + 0x1000] {
                alike(checker, &with, &without, asked(config, address));
            }
        }
    }
}

/// A marked row of any form, mostly one that a transaction could take for its own,
/// in the first empty place; and the same memory without marks at all.
fn added(checker: &mut Checker, random: &mut Random, world: &World, kept: &[u64]) {
    let mut without = kept.to_vec();
    for (number, row) in rows(kept).enumerate() {
        if row.used() && row.marked() {
            without[place(number)] = 0;
        }
    }
    for _ in 0..2 {
        let call = aimed(random, world, kept);
        alike(checker, kept, &without, call);
        let mut with = without.clone();
        let empty = rows(&with).position(|row| !row.used());
        if let Some(empty) = empty {
            let row = like(random, world, kept);
            with[place(empty)..][..4].copy_from_slice(&row);
            alike(checker, &without, &with, call);
        }
    }
}

/// A guest's row of the memory with a mark, or another one.
fn like(random: &mut Random, world: &World, kept: &[u64]) -> Words {
    let guests: Vec<Row> = rows(kept)
        .filter(|row| row.used() && row.kind() == Kind::Stage1 && row.last_level())
        .collect();
    let row = if guests.is_empty() || random.once_in(4) {
        reach(random, world, STAGE1).page(world.page(random), stage_payload(random, STAGE1))
    } else {
        random.pick(&guests).0
    };
    marked(row, random.pick(&MARKS))
}
