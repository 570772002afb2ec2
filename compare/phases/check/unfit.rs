//! Commands that don't qualify, for every reason and at every place of either batch.

use super::samples::{batch, control, first, hall, idle, own, FIT};
use super::{ask, bytes, related, says, Image, ALL};
use crate::call::{UNQUALIFIED, YES};
use crate::checker::Checker;
use crate::generate::commands::{Command, CODES, DPT, E2H, HYP, RANGED, RIL};
use crate::generate::images::with_rows;
use crate::generate::ranges::Range;
use crate::generate::rows::Reach;

pub fn sweeps(checker: &mut Checker) {
    checker.phase("check: commands that don't qualify, at every place");
    for (command, features) in unfit() {
        for count in [1, 2, 3, 5, 17] {
            for place in [0, 1, count / 2, count - 1] {
                at(checker, (command, features), place.min(count - 1), count);
            }
        }
        crossed(checker, (command, features));
    }
    checker.phase("check: every code there is");
    for code in 0..256 {
        single(checker, (code, 0), ALL | E2H);
        single(checker, (code, 0), 0);
    }
    checker.phase("check: each bit of each code");
    for code in CODES {
        bits(checker, code);
    }
    checker.phase("check: ranges that are illegal, and their neighbours");
    ranges(checker);
}

/// Commands, each with features under which it doesn't qualify.
fn unfit() -> Vec<(Command, u64)> {
    let all = ALL | E2H;
    let mut unfit = vec![
        ((0x01, 0), all),
        ((0x01 | !0 << 11, !0), all),
        ((0x02, 0), 0),
        ((0x46, 0), all),
        ((0x1046, 0), all),
        ((0x2046, 0), 0),
        ((0x2046 | 0xFFFF_FFFF_0FC0_0000, !0), all),
        ((0x3046, 0), all),
        ((0x00, 0), all),
        ((0x29, 0), all),
        ((0x47, 0), all),
        ((0xFF, 0), all),
        ((!0, !0), all),
    ];
    for code in FIT {
        let (low, high) = own(code);
        unfit.push(((low | 1 << 10, high), all));
        let without = match code {
            0x05 | 0x06 | 0x10..=0x13 => all & !1,
            0x20..=0x23 => all & !HYP,
            0x28 | 0x2A => all & !2,
            0x70 | 0x73 => all & !DPT,
            _ => continue,
        };
        unfit.push(((low, high), without));
    }
    for code in RANGED {
        let (low, high) = own(code);
        unfit.push(((low, high | 1 << 10), all));
        unfit.push(((low | 1 << 12, high | 1 << 10), all & !RIL));
    }
    unfit
}

/// Commands that qualify under any of those features, and are after rows or not.
fn fit(count: usize) -> Vec<Command> {
    let some = [own(0x03), idle(0x03), (0x30, 0), own(0x04), idle(0x04)];
    (0..count).map(|number| some[number % some.len()]).collect()
}

fn image(features: u64) -> Image {
    Image { features, ..hall() }
}

/// Among those that qualify, in the original, in the proposal and in both; with another
/// one behind it.
fn at(checker: &mut Checker, (command, features): (Command, u64), place: usize, count: usize) {
    let image = image(features);
    let good = bytes(&fit(count));
    let mut commands = fit(count);
    commands[place] = command;
    let bad = bytes(&commands);
    let place = place as u64;
    let own = [UNQUALIFIED, 0, place];
    let proposed = [UNQUALIFIED, 1, place];
    says(checker, &image, [&bad, &good], own);
    says(checker, &image, [&good, &bad], proposed);
    says(checker, &image, [&bad, &bad], own);
    says(checker, &image, [&bad, &[]], own);
    says(checker, &image, [&[], &bad], proposed);
    let more = [&bad[..], &bad].concat();
    says(checker, &image, [&more, &good], own);
    says(checker, &image, [&good, &more], proposed);
    // Another one, by another reason, behind it and in the other batch before it.
    let behind = [&bad[..], &bytes(&[(0x46, 0), (0xFF, 0)])].concat();
    says(checker, &image, [&behind, &bytes(&[(0x01, 0)])], own);
    let early = [&bytes(&[(0x01, 0)]), &good[..]].concat();
    says(checker, &image, [&bad, &early], own);
    says(checker, &image, [&good, &behind], proposed);
}

/// A late one in the original beside an early one in the proposal, where rows differ and
/// where they don't.
fn crossed(checker: &mut Checker, (command, features): (Command, u64)) {
    let image = image(features);
    let late = bytes(&[own(0x03), own(0x04), (0x30, 0), command]);
    let early = bytes(&[command, own(0x03)]);
    let none = bytes(&[idle(0x03)]);
    says(checker, &image, [&late, &early], [UNQUALIFIED, 0, 3]);
    says(checker, &image, [&early, &late], [UNQUALIFIED, 0, 0]);
    says(checker, &image, [&none, &late], [UNQUALIFIED, 1, 3]);
    related(checker, &image, &none, &early);
    related(checker, &image, &late, &early);
}

/// A command that may qualify or not, in either batch beside one that does.
fn single(checker: &mut Checker, command: Command, features: u64) {
    let image = image(features);
    let one = bytes(&[command]);
    let two = bytes(&[own(0x03), command]);
    let fit = bytes(&[own(0x03)]);
    ask(checker, &image, &one, &fit);
    ask(checker, &image, &fit, &one);
    ask(checker, &image, &two, &fit);
    ask(checker, &image, &fit, &two);
}

fn bits(checker: &mut Checker, code: u64) {
    let (low, high) = own(code);
    for bit in 8..128 {
        let (one, other) = match bit {
            0..64 => (1u64 << bit, 0u64),
            _ => (0, 1 << (bit - 64)),
        };
        let command = (low ^ one, high ^ other);
        single(checker, command, ALL | E2H);
        single(checker, command, 0b1101);
    }
}

/// Every TG, TTL and TTL128 with few of NUM and SCALE, with RIL and without.
fn ranges(checker: &mut Checker) {
    let row = first().page(0, 15);
    let next = Reach {
        page: first().page + 0x1000,
        ..first()
    };
    let kept = with_rows(control(6), &[row, next.table()]);
    let table = vec![0, 0];
    for (tg, ttl, ttl128) in
        (0..16).flat_map(|tg_ttl| [0, 1].map(|ttl128| (tg_ttl / 4, tg_ttl % 4, ttl128)))
    {
        for (num, scale) in [(0, 0), (1, 0), (0, 1), (31, 31)] {
            let range = Range {
                num,
                scale,
                tg,
                ttl,
                ttl128,
            };
            for code in [0x12, 0x13, 0x2A] {
                let ranged = bytes(&[range.over(own(code))]);
                let page = batch(&[code]);
                for features in [ALL, ALL & !RIL] {
                    let (kept, table) = (kept.clone(), table.clone());
                    let image = Image {
                        kept,
                        table,
                        features,
                    };
                    related(checker, &image, &page, &ranged);
                }
            }
        }
    }
    let image = image(ALL);
    says(checker, &image, [&[], &[]], [YES, 0, 0]);
}
