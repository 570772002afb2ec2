//! Which row is named: at every place of tables of every size, alone and among others.

use super::samples::{control, first};
use super::{bytes, says, Image, ALL};
use crate::call::{DIFFERS, YES};
use crate::checker::Checker;
use crate::generate::commands::Command;
use crate::generate::images::with_rows;
use crate::generate::regions::{about, region, with_regions, Pair};
use crate::generate::rows::{Reach, Words};
use crate::limits::{REGIONS, ROWS};
use crate::phases::limits::{places, sizes};

pub fn sweeps(checker: &mut Checker) {
    checker.phase("check: the row that is named, at every place");
    for rows in sizes() {
        let regions = 1 + rows % REGIONS;
        for place in places(rows + regions) {
            alone(checker, rows, regions, place);
        }
    }
    for regions in 1..=REGIONS {
        alone(checker, 1, regions, regions);
        alone(checker, 2, regions, 2);
    }
    checker.phase("check: the lowest of several rows is named");
    for (rows, regions) in [
        (1, 1),
        (2, 1),
        (1, 2),
        (3, 3),
        (9, 5),
        (100, 128),
        (ROWS, 7),
    ] {
        several(checker, rows, regions);
    }
}

/// A table of rows, each of which one command alone takes.
fn image(rows: u64, regions: u64) -> Image {
    let row = |vmid: u64| Reach { vmid, ..first() }.table();
    let rows: Vec<Words> = (0..rows).map(row).collect();
    let region = |place: u64| region(0, true, place << 12);
    let regions: Vec<Pair> = (0..regions).map(region).collect();
    Image {
        kept: with_rows(control(rows.len() as u64), &rows),
        table: with_regions(&regions),
        features: ALL,
    }
}

/// The command for one of them, counted through both tables.
fn taking(rows: u64, place: u64) -> Command {
    match place.checked_sub(rows) {
        None => (0x10 | place << 32, 0),
        Some(region) => about(region << 12, 0, 1),
    }
}

fn batch(rows: u64, places: &[u64]) -> Vec<u8> {
    let commands: Vec<Command> = places.iter().map(|&place| taking(rows, place)).collect();
    bytes(&commands)
}

/// One row differs, by either batch, alone or with others that both take.
fn alone(checker: &mut Checker, rows: u64, regions: u64, place: u64) {
    let image = image(rows, regions);
    let last = rows + regions - 1;
    let common: Vec<u64> = [0, place / 2, rows - 1, rows, last]
        .into_iter()
        .filter(|&other| other != place)
        .collect();
    let (own, others) = (batch(rows, &[place]), batch(rows, &common));
    let with = [&others[..], &own].concat();
    for [one, other] in [[&own[..], &[]], [&with, &others]] {
        says(checker, &image, [one, other], [DIFFERS, place, 0]);
        says(checker, &image, [other, one], [DIFFERS, place, 0]);
        says(checker, &image, [one, one], [YES, 0, 0]);
    }
}

/// Two rows differ, both by the original, both by the proposal, one by each; then more.
fn several(checker: &mut Checker, rows: u64, regions: u64) {
    let image = image(rows, regions);
    let last = rows + regions - 1;
    let mut ends = vec![0, 1, rows / 2, rows - 1, rows, rows + regions / 2, last];
    ends.retain(|&place| place <= last);
    ends.sort();
    ends.dedup();
    for &one in &ends {
        for &other in ends.iter().filter(|&&other| other != one) {
            let named = [DIFFERS, one.min(other), 0];
            let (first, second) = (batch(rows, &[one]), batch(rows, &[other]));
            let both = batch(rows, &[one, other]);
            says(checker, &image, [&first, &second], named);
            says(checker, &image, [&both, &[]], named);
            says(checker, &image, [&[], &both], named);
            says(checker, &image, [&both, &first], [DIFFERS, other, 0]);
            says(checker, &image, [&second, &both], [DIFFERS, one, 0]);
        }
    }
    let all = batch(rows, &ends);
    says(checker, &image, [&all, &[]], [DIFFERS, 0, 0]);
    for skipped in 0..ends.len() {
        let (before, behind) = ends.split_at(skipped);
        let fewer = batch(rows, &[before, &behind[1..]].concat());
        let named = [DIFFERS, ends[skipped], 0];
        says(checker, &image, [&all, &fewer], named);
        says(checker, &image, [&all, &batch(rows, before)], named);
        says(checker, &image, [&batch(rows, before), &all], named);
    }
}
