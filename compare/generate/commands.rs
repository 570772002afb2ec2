//! Commands whose fields come from the pools, and their illegal relatives.

use super::random::Random;
use super::ranges::reaching;
use super::regions::any_about;
use super::world::World;
use crate::limits::{ADDRESS, REGIONS, ROWS, SLOTS};
use crate::model::command::{decode, Features};

pub const CODES: [u64; 20] = [
    0x01, 0x02, 0x03, 0x04, 0x05, 0x06, 0x10, 0x11, 0x12, 0x13, 0x20, 0x21, 0x22, 0x23, 0x28, 0x2A,
    0x30, 0x46, 0x70, 0x73,
];
/// Those of the hypervisor's own rows.
pub const HYP_CODES: [u64; 4] = [0x20, 0x21, 0x22, 0x23];
/// Those that have an address, from which a range may start.
pub const RANGED: [u64; 5] = [0x12, 0x13, 0x22, 0x23, 0x2A];

/// Codes that take few rows at a time stand more often than the sweeping ones.
const USUAL: [u64; 35] = [
    0x01, 0x02, 0x03, 0x03, 0x04, 0x04, 0x05, 0x05, 0x06, 0x10, 0x11, 0x11, 0x11, 0x12, 0x12, 0x12,
    0x13, 0x13, 0x20, 0x21, 0x21, 0x22, 0x22, 0x23, 0x28, 0x2A, 0x2A, 0x30, 0x46, 0x46, 0x70, 0x73,
    0x73, 0x73, 0x73,
];

/// The bits of the features: S1P, S2P, ASID16 and VMID16; Hyp; RIL; DPT; and the
/// setting E2H.
pub const FOUR: u64 = 0b1111;
pub const HYP: u64 = 1 << 4;
pub const RIL: u64 = 1 << 5;
pub const DPT: u64 = 1 << 6;
pub const E2H: u64 = 1 << 7;
pub const KNOWN: u64 = FOUR | HYP | RIL | DPT | E2H;

/// Low and high word.
pub type Command = (u64, u64);

/// A command with all its fields, legal if the features are there.
pub fn of_code(random: &mut Random, world: &World, code: u64) -> Command {
    let stream = world.stream(random) << 32;
    let vmid = world.vmid(random) << 32;
    let asid = world.asid(random) << 48;
    let leaf = random.below(2);
    let any = random.below(32);
    let range = random.pick(&[0, 1, 2, 5, 6, 7, 8, 9, 10, 30, 31, any]);
    let further = random.below(4) << 12;
    let page = world.input(random).wrapping_add(further);
    let high_page = if random.once_in(12) {
        page ^ 1 << random.between(52, 63)
    } else {
        page
    };
    if code == 0x73 {
        return any_about(random, world);
    }
    let low = match code {
        0x01 | 0x02 => random.next() & !0x4FF,
        0x03 | 0x04 | 0x06 => stream,
        0x05 => stream | world.substream(random) << 12,
        0x11 | 0x12 => vmid | asid,
        0x21 | 0x22 => asid,
        0x10 | 0x13 | 0x28 | 0x2A => vmid,
        0x46 => (random.next() & 0xFFFF_FFFF_0FC0_0000) | random.below(3) << 12,
        _ => 0,
    };
    let high = match code {
        0x01 | 0x02 | 0x46 => random.next(),
        0x03 | 0x05 => leaf,
        0x04 => range,
        0x12 | 0x13 | 0x22 | 0x23 => high_page | leaf,
        0x2A => page % ADDRESS | leaf,
        _ => 0,
    };
    (low | code, high)
}

/// One command, mostly legal under the features.
pub fn usual(random: &mut Random, world: &World, features: u64) -> Command {
    let mut command = (0x30, 0);
    for _ in 0..6 {
        let code = random.pick(&USUAL);
        command = of_code(random, world, code);
        if decode(command.0, command.1, Features::from_bits(features)).is_ok() {
            break;
        }
    }
    match features & RIL {
        0 => command,
        _ => reaching(command, 2),
    }
}

/// A command turned illegal in one of several ways; some stay legal.
pub fn spoilt(random: &mut Random, world: &World) -> Command {
    let code = random.pick(&CODES);
    let (low, high) = reaching(of_code(random, world, code), 4);
    match random.below(6) {
        0 => (low & !0xFF | random.below(256), high),
        1 => (low ^ 1 << random.below(64), high),
        2 => (low ^ 1 << random.between(8, 11), high),
        3 => (low, high ^ 1 << random.below(64)),
        4 => (0x46 | 3 << 12, high),
        _ => (low, high),
    }
}

/// A whole queue; about one command in `rarity` is spoilt.
pub fn queue_with(
    random: &mut Random,
    world: &World,
    features: u64,
    slots: u64,
    rarity: u64,
) -> Vec<u8> {
    let mut bytes = Vec::new();
    for _ in 0..slots {
        let spoil = random.once_in(rarity);
        let (low, high) = if spoil {
            spoilt(random, world)
        } else {
            usual(random, world, features)
        };
        bytes.extend_from_slice(&low.to_le_bytes());
        bytes.extend_from_slice(&high.to_le_bytes());
    }
    bytes
}

pub fn queue(random: &mut Random, world: &World, features: u64, slots: u64) -> Vec<u8> {
    let rarity = random.pick(&[4, 16, 64, 1000]);
    queue_with(random, world, features, slots, rarity)
}

/// Each combination of the features and E2H.
pub fn combinations() -> impl Iterator<Item = u64> {
    (0..=KNOWN).filter(|bits| bits & !KNOWN == 0)
}

/// Hyp, mostly there, and E2H, set or not; by the same draw RIL and DPT, there or not.
pub fn settings(random: &mut Random) -> u64 {
    let draw = random.next();
    let hyp = [0, E2H, HYP, HYP, HYP, HYP | E2H, HYP | E2H, HYP | E2H];
    hyp[draw as usize % hyp.len()] | (draw >> 63) * RIL | (draw >> 62 & 1) * DPT
}

/// Features, often all of them; now and then with bits set that nobody looks at.
pub fn features(random: &mut Random) -> u64 {
    let four = if random.once_in(2) {
        FOUR
    } else {
        random.below(16)
    };
    let known = four | settings(random);
    if random.once_in(8) {
        known | random.next() & !KNOWN
    } else {
        known
    }
}

/// An allowance: often within reach of a cut, at its least and greatest, or large
/// with little in its lower half.
pub fn allowance(random: &mut Random) -> u64 {
    let small = random.below(12);
    let middle = random.below(SLOTS + ROWS + REGIONS + 16);
    let large = random.next() << 32 | small;
    random.pick(&[0, 1, small, small, middle, large, u64::MAX, u64::MAX])
}
