//! Sweeps over memory types, shareability, hints and their overrides.

use super::waiting;
use crate::call::{Asked, Call};
use crate::checker::Checker;
use crate::generate::images::with_rows;
use crate::generate::random::Random;
use crate::generate::rows::{
    attributes, cd, hints_allowed, ste, ste_payload, Reach, Words, SHARES, STAGE1, STAGE2, TYPES,
};

const STREAM: u32 = 0x77;
const ADDRESS: u64 = 0x1234;

pub fn sweeps(checker: &mut Checker) {
    pairs(checker);
    overrides(checker);
    flags(checker);
    widths(checker);
}

/// A transaction of the one stream over a whole chain.
fn ask(checker: &mut Checker, rows: &[Words], how: u64, (memattr, sh, hints): (u64, u64, u64)) {
    let mut kept = with_rows(waiting(0, 0), rows);
    let (stream, substream, address) = (STREAM, 5, ADDRESS);
    let asked = Asked {
        stream,
        substream,
        address,
        how,
        memattr,
        sh,
        hints,
    };
    checker.call(&mut kept, Call::Translate(asked));
}

/// STE, CD and a row of each stage, with the payloads given.
fn whole(config: u64, payload: u64, first: u64, second: u64) -> Vec<Words> {
    let near = Reach {
        kind: STAGE1,
        vmid: 3,
        asid: 4,
        global: false,
        span: 12,
        page: ADDRESS,
    };
    let far = Reach {
        kind: STAGE2,
        vmid: 3,
        asid: 0,
        global: false,
        span: 13,
        page: 0x8000,
    };
    vec![
        ste(STREAM.into(), 3, config, payload),
        cd(STREAM.into(), 5, 4),
        near.page(0x9000, first),
        far.page(0xC000, second),
        Reach {
            page: ADDRESS,
            ..far
        }
        .page(0xA000, second),
    ]
}

/// Every well-formed type and shareability, with fitting hints.
fn kinds(random: &mut Random) -> Vec<(u64, u64, u64)> {
    let mut kinds = Vec::new();
    for (memattr, sh) in TYPES
        .into_iter()
        .flat_map(|memattr| SHARES.map(|sh| (memattr, sh)))
    {
        kinds.push((memattr, sh, random.next() & hints_allowed(memattr)));
    }
    kinds
}

/// All pairs, once with stage 1's attributes and once with incoming ones.
fn pairs(checker: &mut Checker) {
    let mut random = checker.phase("all pairs of attributes");
    for first in kinds(&mut random) {
        for (memattr, sh, _) in kinds(&mut random) {
            let second = memattr | sh << 4;
            let held = first.0 | first.1 << 4 | first.2 << 6;
            let rows = whole(7, ste_payload(&mut random), held, second);
            ask(checker, &rows, 0, attributes(&mut random));
            // SHCFG 1, nothing else overridden.
            ask(checker, &whole(6, 1 << 5, 0, second), 0, first);
        }
    }
}

/// Every incoming type against every MTCFG type and every ALLOCCFG.
fn overrides(checker: &mut Checker) {
    let mut random = checker.phase("type and allocation overrides");
    let taken = TYPES.map(|memattr| memattr << 1 | 1);
    for incoming in kinds(&mut random) {
        for typing in taken.into_iter().chain([15 << 1]) {
            for alloccfg in 0..16 {
                let shcfg = random.below(4);
                let payload = typing | shcfg << 5 | alloccfg << 7;
                let config = random.pick(&[4, 4, 6]);
                // Stage 2 gives way to everything, so that the overrides are seen.
                ask(checker, &whole(config, payload, 0, 15), 0, incoming);
            }
        }
    }
}

/// Write, instruction and privileged against INSTCFG and PRIVCFG, all Configs.
fn flags(checker: &mut Checker) {
    let mut random = checker.phase("instruction and privilege overrides");
    for config in [0, 4, 5, 6, 7] {
        for (cfg, how) in (0..16).flat_map(|cfg| (0..16).map(move |how| (cfg, how))) {
            let payload = ste_payload(&mut random) & 0x7FF | cfg << 11;
            ask(
                checker,
                &whole(config, payload, 0o77 << 6 | 15, 15),
                how,
                attributes(&mut random),
            );
        }
    }
}

/// Incoming attributes at, and just above, their widths; and far above.
fn widths(checker: &mut Checker) {
    let mut random = checker.phase("widths of incoming attributes");
    let rows = whole(4, 1 << 5, 0, 0);
    for memattr in 0..18 {
        for (sh, hints) in (0..5).flat_map(|sh| (0..66).map(move |hints| (sh, hints))) {
            ask(checker, &rows, 0, (memattr, sh, hints));
        }
    }
    for bit in 0..64 {
        let (memattr, sh, hints) = attributes(&mut random);
        ask(checker, &rows, 0, (memattr | 1 << bit, sh, hints));
        ask(checker, &rows, 0, (memattr, sh | 1 << bit, hints));
        ask(checker, &rows, 0, (memattr, sh, hints | 1 << bit));
        // Refusal 10 comes before the stream is looked for.
        ask(checker, &rows[1..], 0, (memattr | 1 << bit, sh, hints));
    }
}
