//! Every command: what is written for it, that a run consumes it, and which fields are too wide.

mod common;

use common::{one_row, Random, ONE_REGION};
use tahvenno::*;

const ROUNDS: usize = 1_000;

/// A command with random fields, and its 128 bits by the bit numbers of documents 01 and 02.
type Make = fn(&mut Random) -> (Command, u128);

const COMMANDS: [Make; 20] = [
    |_| (Command::PrefetchConfig, 0x01),
    |_| (Command::PrefetchAddr, 0x02),
    |r| {
        let (stream, leaf) = (r.wide(32) as u32, r.flag());
        (Command::CfgiSte { stream, leaf }, 0x03 | bits(stream, 32) | bits(leaf, 64))
    },
    |r| {
        let (stream, range) = (r.wide(32) as u32, r.wide(5) as u8);
        (Command::CfgiSteRange { stream, range }, 0x04 | bits(stream, 32) | bits(range, 64))
    },
    |r| {
        let (stream, substream, leaf) = (r.wide(32) as u32, r.wide(20) as u32, r.flag());
        let due = 0x05 | bits(substream, 12) | bits(stream, 32) | bits(leaf, 64);
        (Command::CfgiCd { stream, substream, leaf }, due)
    },
    |r| {
        let stream = r.wide(32) as u32;
        (Command::CfgiCdAll { stream }, 0x06 | bits(stream, 32))
    },
    |r| {
        let vmid = r.wide(16) as u16;
        (Command::TlbiNhAll { vmid }, 0x10 | bits(vmid, 32))
    },
    |r| {
        let (vmid, asid) = (r.wide(16) as u16, r.wide(16) as u16);
        (Command::TlbiNhAsid { vmid, asid }, 0x11 | bits(vmid, 32) | bits(asid, 48))
    },
    |r| {
        let (vmid, asid, (target, due)) = (r.wide(16) as u16, r.wide(16) as u16, target(r, 64));
        (Command::TlbiNhVa { vmid, asid, target }, 0x12 | bits(vmid, 32) | bits(asid, 48) | due)
    },
    |r| {
        let (vmid, (target, due)) = (r.wide(16) as u16, target(r, 64));
        (Command::TlbiNhVaa { vmid, target }, 0x13 | bits(vmid, 32) | due)
    },
    |_| (Command::TlbiEl2All, 0x20),
    |r| {
        let asid = r.wide(16) as u16;
        (Command::TlbiEl2Asid { asid }, 0x21 | bits(asid, 48))
    },
    |r| {
        let (asid, (target, due)) = (r.wide(16) as u16, target(r, 64));
        (Command::TlbiEl2Va { asid, target }, 0x22 | bits(asid, 48) | due)
    },
    |r| {
        let (target, due) = target(r, 64);
        (Command::TlbiEl2Vaa { target }, 0x23 | due)
    },
    |r| {
        let vmid = r.wide(16) as u16;
        (Command::TlbiS12Vmall { vmid }, 0x28 | bits(vmid, 32))
    },
    |r| {
        let (vmid, (target, due)) = (r.wide(16) as u16, target(r, 52));
        (Command::TlbiS2Ipa { vmid, target }, 0x2A | bits(vmid, 32) | due)
    },
    |_| (Command::TlbiNsnhAll, 0x30),
    |r| {
        let signal = r.pick(Signal::ALL);
        (Command::Sync { signal }, 0x46 | bits(signal, 12))
    },
    |_| (Command::DptiAll, 0x70),
    |r| {
        let (leaf, size, address) = (r.flag(), r.pick(RegionSize::ALL), r.wide(56));
        (Command::DptiPa { leaf, size, address }, 0x73 | bits(leaf, 64) | bits(size, 72) | bits(address >> 12, 76))
    },
];

fn bits(value: impl Into<u64>, lowest: u32) -> u128 {
    u128::from(value.into()) << lowest
}

/// Leaf, an address of so many bits, and a range that is legal or none.
fn target(r: &mut Random, width: u32) -> (Target, u128) {
    let (leaf, address) = (r.flag(), r.wide(width));
    let due = bits(leaf, 64) | bits(address >> 12, 76);
    if r.flag() {
        return (Target { leaf, address, range: None }, due);
    }
    let (granule, num, scale, ttl) = (r.pick(Granule::ALL), r.wide(5) as u8, r.wide(5) as u8, r.wide(2) as u8);
    // one granule alone needs a level, and more than 1 for 16 KiB
    let ttl = if num == 0 && scale == 0 { ttl.max(2) } else { ttl };
    let range = Range { granule, num, scale, ttl, ttl128: ttl > 0 && r.flag() };
    let fields = bits(num, 12) | bits(scale, 20) | bits(range.ttl128, 71) | bits(ttl, 72) | bits(granule, 74);
    (Target { leaf, address, range: Some(range) }, due | fields)
}

#[test]
fn each_is_written_as_the_papers_have_it() {
    let mut random = Random::new(13);
    for make in COMMANDS {
        for _ in 0..ROUNDS {
            let (command, due) = make(&mut random);
            let mut slot = [0xFF; layout::SLOT_BYTES];
            write_command(&mut slot, &command.words(), Features::ALL).expect("a legal command");
            assert_eq!(u128::from_le_bytes(slot), due, "{command:x?}");
        }
    }
}

#[test]
fn each_is_consumed_by_a_run() {
    let mut random = Random::new(14);
    for make in COMMANDS {
        for _ in 0..ROUNDS / 10 {
            let (command, _) = make(&mut random);
            let (mut kept, mut table, mut queue) = (one_row(0), ONE_REGION, [0; queue_bytes(0)]);
            write_batch(&mut kept, &mut queue, &[command.words()], Features::ALL).expect("a legal command");
            let told = run(&mut kept, &mut table, &queue, Features::ALL, layout::MAX_STORES).expect("a run");
            let interrupts = u64::from(command == Command::Sync { signal: Signal::Interrupt });
            let due = Run { end: RunEnd::Empty, consumed: 1, stores: 1, removed: 0, interrupts };
            assert_eq!(told, due, "{command:x?}");
        }
    }
}

#[test]
fn fields_that_are_too_wide_are_refused() {
    let at = Target::at(0x1000);
    let range = Range { granule: Granule::Kb16, num: 1, scale: 0, ttl: 0, ttl128: false };
    let ranged = |range| Command::TlbiNhVaa { vmid: 0, target: Target { range: Some(range), ..at } };
    let mut slot = [0; layout::SLOT_BYTES];
    write_command(&mut slot, &ranged(range).words(), Features::ALL).expect("a legal command");
    for command in [
        Command::CfgiSteRange { stream: 0, range: 32 },
        Command::CfgiCd { stream: 0, substream: 1 << 20, leaf: false },
        Command::TlbiS2Ipa { vmid: 0, target: Target::at(1 << 52) },
        Command::DptiPa { leaf: false, size: RegionSize::Kb4, address: 1 << 56 },
        ranged(Range { num: 32, ..range }),
        ranged(Range { scale: 32, ..range }),
        ranged(Range { ttl: 4, ..range }),
        ranged(Range { ttl128: true, ..range }),
        ranged(Range { num: 0, ..range }),
        ranged(Range { num: 0, ttl: 1, ..range }),
    ] {
        let before = slot;
        let told = write_command(&mut slot, &command.words(), Features::ALL);
        assert_eq!((told, slot), (Err(Refusal::Fields { command: 0 }), before), "{command:x?}");
    }
}
