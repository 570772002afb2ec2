//! The fields of a range in each other's company, with RIL and without.

use super::{gives, one, ALL};
use crate::checker::Checker;
use crate::generate::commands::{CODES, RANGED, RIL};
use crate::generate::fields::{full, with};
use crate::model::fields::*;

pub fn sweeps(checker: &mut Checker) {
    checker.phase("writer: ranges in every company");
    for code in RANGED {
        for num in [0, 1, 16, 31] {
            for scale in [0, 1, 16, 31] {
                company(checker, code, (num, scale));
            }
        }
    }
    checker.phase("writer: ranges wider than they may be");
    for code in RANGED {
        wider(checker, code);
    }
    checker.phase("writer: no range in another command");
    for code in CODES.into_iter().filter(|code| !RANGED.contains(code)) {
        for field in NUM..=TTL128 {
            let mut fields = full(code);
            fields[field] = 1;
            gives(checker, &fields, ALL, 21);
            fields[TG] = 1;
            fields[TTL] = 1;
            gives(checker, &fields, ALL, 21);
        }
    }
}

/// The number that Arm's combinations give once there is RIL.
fn due((num, scale): (u64, u64), (tg, ttl, ttl128): (u64, u64, u64)) -> u64 {
    let one = num == 0 && scale == 0;
    let legal = match (tg, ttl) {
        (0, _) => one && ttl == 0 && ttl128 == 0,
        (_, 0) => !one && ttl128 == 0,
        // TTL 1 is no level of a 16 KiB granule.
        (2, 1) => !one,
        _ => true,
    };
    if legal {
        0
    } else {
        21
    }
}

fn company(checker: &mut Checker, code: u64, (num, scale): (u64, u64)) {
    for tg in 0..4 {
        for (ttl, ttl128) in (0..4).flat_map(|ttl| [(ttl, 0), (ttl, 1)]) {
            let range = [
                (NUM, num),
                (SCALE, scale),
                (TG, tg),
                (TTL, ttl),
                (TTL128, ttl128),
            ];
            let mut others = full(code);
            range
                .iter()
                .for_each(|&(field, value)| others[field] = value);
            let right = due((num, scale), (tg, ttl, ttl128));
            let none = range.iter().all(|&(_, value)| value == 0);
            for fields in [with(code, &range), others] {
                gives(checker, &fields, ALL, right);
                gives(checker, &fields, ALL & !RIL, if none { 0 } else { 21 });
                one(checker, &fields, RIL);
            }
        }
    }
}

/// SCALE has five bits here, though bit 25 is free; no field reaches into the next.
fn wider(checker: &mut Checker, code: u64) {
    let most = [(NUM, 31), (SCALE, 31), (TG, 3), (TTL, 3), (TTL128, 1)];
    for (field, largest) in most {
        for value in [largest + 1, largest + 2, 2 * (largest + 1), 1 << 32 | 1] {
            for tg in 0..4 {
                let mut fields = with(code, &[(TG, tg), (TTL, 2), (NUM, 1), (ADDRESS, 0x77)]);
                fields[field] = value;
                gives(checker, &fields, ALL, 21);
                gives(checker, &fields, ALL & !RIL, 21);
            }
        }
    }
}
