//! Transactions aimed at the rows of a memory, and a little beside them.

use super::random::Random;
use super::rows::attributes;
use super::world::World;
use crate::call::{Asked, Call};
use crate::limits::UPPER;
use crate::model::image::rows;
use crate::model::row::{Kind, Row};

/// A row of the memory that passes the test, if there is one.
fn some_row(random: &mut Random, kept: &[u64], test: impl Fn(&Row) -> bool) -> Option<Row> {
    let found: Vec<Row> = rows(kept).filter(|row| row.used() && test(row)).collect();
    (!found.is_empty()).then(|| random.pick(&found))
}

/// An address in a page of the pool, at an edge of a row's span, or where the row
/// would be in the other half or in none.
pub fn address(random: &mut Random, world: &World, row: Option<Row>) -> u64 {
    let page = world.input(random) + random.below(0x1000);
    let Some(row) = row else {
        return page;
    };
    let past = row.input().wrapping_add(1 << row.span());
    let inside = row.input().wrapping_add(random.below(1 << row.span()));
    let before = row.input().wrapping_sub(1);
    let last = past.wrapping_sub(1);
    let in_neither = inside ^ 1 << random.between(52, 63);
    random.pick(&[
        page,
        page,
        page,
        row.input(),
        last,
        inside,
        inside,
        past,
        before,
        in_neither,
        inside ^ UPPER,
    ])
}

/// A transaction of a stream in the table, with a substream and an address that
/// its rows know; one in eight is moved off in one respect.
pub fn aimed(random: &mut Random, world: &World, kept: &[u64]) -> Call<'static> {
    let ste = some_row(random, kept, |row| {
        row.kind() == Kind::Ste && row.last_level()
    });
    let mut stream = ste.map_or(world.stream(random), |row| row.stream());
    let cd = some_row(random, kept, |row| {
        row.kind() == Kind::Cd && row.last_level() && row.stream() == stream
    });
    let mut substream = cd.map_or(world.substream(random), |row| row.substream());
    let stage = some_row(random, kept, |row| reached(row, ste, cd));
    let mut address = address(random, world, stage);
    match random.below(32) {
        0 => stream ^= 1 << random.below(32),
        1 => substream = world.substream(random),
        2 => substream |= 1 << random.between(20, 31),
        3 => address = random.any_width(),
        _ => (),
    }
    let (memattr, sh, hints) = incoming(random);
    let how = if random.once_in(8) {
        random.next()
    } else {
        random.below(8)
    };
    let (stream, substream) = (stream as u32, substream as u32);
    Call::Translate(Asked {
        stream,
        substream,
        address,
        how,
        memattr,
        sh,
        hints,
    })
}

/// Whether a row is of the stage that the STE row leads to first, and fits what
/// is known so far.
fn reached(row: &Row, ste: Option<Row>, cd: Option<Row>) -> bool {
    let second = ste.is_some_and(|ste| ste.config() == 6);
    let kind = if second { Kind::Stage2 } else { Kind::Stage1 };
    row.kind() == kind
        && row.last_level()
        && ste.map_or(true, |ste| ste.vmid() == row.vmid())
        && (second || row.global() || cd.map_or(true, |cd| cd.asid() == row.asid()))
}

/// Incoming attributes, now and then ill formed or too wide in one respect.
fn incoming(random: &mut Random) -> (u64, u64, u64) {
    let (memattr, sh, hints) = attributes(random);
    match random.below(48) {
        0 => (random.pick(&[4, 8, 12, 16]), sh, hints),
        1 => (memattr, random.pick(&[1, 4]), hints),
        2 => (memattr, sh, random.below(128)),
        3 => (memattr | 1 << random.between(4, 63), sh, hints),
        4 => (memattr, sh | 1 << random.between(2, 63), hints),
        5 => (memattr, sh, hints | 1 << random.between(6, 63)),
        _ => (memattr, sh, hints),
    }
}
