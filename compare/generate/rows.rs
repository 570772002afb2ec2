//! Rows that are well formed by the way they are made.

use super::random::Random;
use super::world::World;
use crate::limits::{ADDRESS, BLOCKS};

pub const STAGE1: u64 = 2;
pub const STAGE2: u64 = 3;

/// The well-formed memory types and shareabilities.
pub const TYPES: [u64; 13] = [0, 1, 2, 3, 5, 6, 7, 9, 10, 11, 13, 14, 15];
pub const SHARES: [u64; 3] = [0, 2, 3];

/// The marks of the hypervisor's own stage 1 rows.
pub const EL2: u64 = 1 << 11;
pub const EL2_E2H: u64 = 1 << 12;
pub const MARKS: [u64; 2] = [EL2, EL2_E2H];

const VALID: u64 = 1;
const LAST: u64 = 1 << 3;

pub type Words = [u64; 4];

/// An STE row; the payload counts from MTCFG in its bit 0.
pub fn ste(stream: u64, vmid: u64, config: u64, payload: u64) -> Words {
    [
        VALID | LAST | vmid << 16 | payload << 48,
        stream | config << 52,
        0,
        0,
    ]
}

/// An STE row above the last level, for the block around a stream.
pub fn ste_block(stream: u64, span: u64) -> Words {
    [VALID | span << 5, stream >> span << span, 0, 0]
}

pub fn cd(stream: u64, substream: u64, asid: u64) -> Words {
    [
        VALID | 1 << 1 | LAST | asid << 32,
        stream | substream << 32,
        0,
        0,
    ]
}

pub fn cd_table(stream: u64) -> Words {
    [VALID | 1 << 1, stream, 0, 0]
}

/// What a stage row is found by; `asid` and `global` are for stage 1 only.
#[derive(Clone, Copy)]
pub struct Reach {
    pub kind: u64,
    pub vmid: u64,
    pub asid: u64,
    pub global: bool,
    pub span: u64,
    pub page: u64,
}

impl Reach {
    /// A stage row above the last level.
    pub fn table(&self) -> Words {
        let own = if self.kind == STAGE1 {
            self.asid << 32 | u64::from(self.global) << 4
        } else {
            0
        };
        let word = VALID | self.kind << 1 | self.span << 5 | self.vmid << 16 | own;
        [word, 0, self.page >> self.span << self.span, 0]
    }

    /// A last-level stage row; the payload counts from MemAttr in its bit 0.
    pub fn page(&self, output: u64, payload: u64) -> Words {
        let [word, _, input, _] = self.table();
        [
            word | LAST | payload << 48,
            0,
            input,
            output >> self.span << self.span,
        ]
    }
}

/// A stage 1 row with a mark instead of what it has of VMID and, under EL2, of ASID
/// and global.
pub fn marked([word, one, input, output]: Words, mark: u64) -> Words {
    let bare = word & !(0xFFFF << 16 | EL2 | EL2_E2H);
    let own = if mark == EL2 {
        bare & !(0xFFFF << 32 | 1 << 4)
    } else {
        bare
    };
    [own | mark, one, input, output]
}

/// MTCFG, MemAttr, SHCFG, ALLOCCFG, INSTCFG and PRIVCFG.
pub fn ste_payload(random: &mut Random) -> u64 {
    let memattr = random.pick(&TYPES);
    (random.next() & 0x7FE1) | memattr << 1
}

/// MemAttr, SH and fitting hints, as a stage 1 row and a transaction have them.
pub fn attributes(random: &mut Random) -> (u64, u64, u64) {
    let memattr = random.pick(&TYPES);
    let sh = random.pick(&SHARES);
    (memattr, sh, random.next() & hints_allowed(memattr))
}

/// The hint bits that a type may have set.
pub fn hints_allowed(memattr: u64) -> u64 {
    let half = |code: u64, hints: u64| if memattr > 3 && code > 1 { hints } else { 0 };
    half(memattr & 3, 0o07) | half(memattr >> 2, 0o70)
}

pub fn stage_payload(random: &mut Random, kind: u64) -> u64 {
    let (memattr, sh, hints) = attributes(random);
    memattr | sh << 4 | if kind == STAGE1 { hints << 6 } else { 0 }
}

pub fn reach(random: &mut Random, world: &World, kind: u64) -> Reach {
    Reach {
        kind,
        vmid: world.vmid(random),
        asid: world.asid(random),
        global: random.once_in(3),
        span: world.span(random),
        page: if kind == STAGE1 {
            world.input(random)
        } else {
            world.page(random)
        },
    }
}

/// Any well-formed row in use.
pub fn any_row(random: &mut Random, world: &World) -> Words {
    let stream = world.stream(random);
    match random.below(16) {
        0..=2 => {
            let config = random.pick(&[0, 4, 5, 6, 7, 7]);
            ste(stream, world.vmid(random), config, ste_payload(random))
        }
        3..=4 => ste_block(stream, random.pick(&BLOCKS)),
        5..=6 => cd(stream, world.substream(random), world.asid(random)),
        7 => cd_table(stream),
        draw => {
            let kind = if draw < 13 { STAGE1 } else { STAGE2 };
            let reach = reach(random, world, kind);
            let row = if random.once_in(3) {
                reach.table()
            } else {
                reach.page(world.page(random), stage_payload(random, kind))
            };
            match kind == STAGE1 && random.once_in(3) {
                true => marked(row, random.pick(&MARKS)),
                false => row,
            }
        }
    }
}

/// Rows through which a transaction at `page` of the stream gets an address,
/// unless lower rows answer first; in the upper half only if stage 1 is there. Now
/// and then the hypervisor has a row at that page, too.
pub fn chain(random: &mut Random, world: &World, stream: u64, page: u64) -> Vec<Words> {
    let (vmid, asid) = (world.vmid(random), world.asid(random));
    let config = random.pick(&[4, 5, 6, 7, 7, 7]);
    let first = Reach {
        vmid,
        asid,
        page,
        ..reach(random, world, STAGE1)
    };
    let output = world.page(random);
    let block = 1 << first.span;
    let middle = if config == 6 {
        page % ADDRESS
    } else {
        output / block * block + page % block
    };
    let second = Reach {
        vmid,
        page: middle,
        ..reach(random, world, STAGE2)
    };
    let mut rows = vec![
        ste(stream, vmid, config, ste_payload(random)),
        cd(stream, world.substream(random), asid),
        first.page(output, stage_payload(random, STAGE1)),
        second.page(world.page(random), stage_payload(random, STAGE2)),
    ];
    if random.once_in(3) {
        let own = first.page(world.page(random), stage_payload(random, STAGE1));
        rows.push(marked(own, random.pick(&MARKS)));
    }
    rows
}
