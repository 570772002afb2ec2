//! What document 02 asks of the writers, with fields, words and bytes written out; this
//! holds the model to the papers as well as the unit.

use super::{batch, command, DIRT};
use crate::call::Reply;
use crate::checker::Checker;
use crate::model::fields::Fields;

/// Features: S1P, S2P, ASID16, VMID16, Hyp, RIL and DPT; each alone; all but one.
const ALL: u64 = 0x7F;
const S1P: u64 = 0x01;
const S2P: u64 = 0x02;
const HYP: u64 = 0x10;
const DPT: u64 = 0x40;
const NO_S2P: u64 = 0x7D;
const NO_RIL: u64 = 0x5F;
const NO_WIDE: u64 = 0x73;

pub fn cases(checker: &mut Checker) {
    checker.phase("document 02's writers");
    bytes(checker);
    written(checker);
    missing(checker);
    unfit(checker);
    slots(checker);
    batches(checker);
    batches_refused(checker);
}

const LAW: &str = "a case of the writers isn't met";

/// code, StreamID, SubstreamID, Range, Leaf, VMID, ASID, address, CS, NUM, SCALE, TG,
/// TTL, TTL128, SIZE: those that are given, by their numbers.
fn fields(code: u64, given: &[(usize, u64)]) -> Fields {
    let mut fields = [0; 16];
    fields[0] = code;
    given
        .iter()
        .for_each(|&(field, value)| fields[field] = value);
    fields
}

const STREAM: usize = 1;
const SUBSTREAM: usize = 2;
const RANGE: usize = 3;
const LEAF: usize = 4;
const VMID: usize = 5;
const ASID: usize = 6;
const ADDRESS: usize = 7;
const CS: usize = 8;
const NUM: usize = 9;
const SCALE: usize = 10;
const TG: usize = 11;
const TTL: usize = 12;
const TTL128: usize = 13;
const SIZE: usize = 14;

/// A slot of so many bytes; the number, and what stands there then.
fn write(
    checker: &mut Checker,
    fields: &Fields,
    features: u64,
    length: usize,
    (number, left): (u64, &[u8]),
) {
    let mut slot = vec![DIRT; length];
    let call = command(fields, features);
    let reply = checker.write(&mut [], &mut slot, call);
    let answer = [0; 8];
    let met = reply == Reply { number, answer } && slot == left;
    checker.insist(met, LAW, &[], call, (reply, &[]));
}

fn gives(checker: &mut Checker, fields: Fields, features: u64, low: u64, high: u64) {
    let left = [low.to_le_bytes(), high.to_le_bytes()].concat();
    write(checker, &fields, features, 16, (0, &left));
}

fn refuses(checker: &mut Checker, fields: Fields, features: u64, number: u64) {
    write(checker, &fields, features, 16, (number, &[DIRT; 16]));
}

/// Byte for byte, the lowest first.
fn bytes(checker: &mut Checker) {
    let space = fields(0x11, &[(VMID, 5), (ASID, 0x1234)]);
    let left = [0x11, 0, 0, 0, 5, 0, 0x34, 0x12, 0, 0, 0, 0, 0, 0, 0, 0];
    write(checker, &space, ALL, 16, (0, &left));
    let page = fields(
        0x12,
        &[
            (VMID, 0x8765),
            (ASID, 0xCBA9),
            (ADDRESS, 0xF_0123_4567_89AB),
        ],
    );
    let left = [
        0x12, 0, 0, 0, 0x65, 0x87, 0xA9, 0xCB, 0, 0xB0, 0x9A, 0x78, 0x56, 0x34, 0x12, 0xF0,
    ];
    write(checker, &page, ALL, 16, (0, &left));
}

/// Each code with its fields.
fn written(checker: &mut Checker) {
    for (given, low, high) in [
        (fields(0x01, &[]), 0x01, 0),
        (fields(0x02, &[]), 0x02, 0),
        (
            fields(0x03, &[(STREAM, 0x100), (LEAF, 1)]),
            0x0000_0100_0000_0003,
            1,
        ),
        (
            fields(0x04, &[(STREAM, 0x107), (RANGE, 2)]),
            0x0000_0107_0000_0004,
            2,
        ),
        (fields(0x04, &[(RANGE, 31)]), 0x04, 0x1F),
        (
            fields(0x05, &[(STREAM, 7), (SUBSTREAM, 0xABCDE), (LEAF, 1)]),
            0x0000_0007_ABCD_E005,
            1,
        ),
        (
            fields(0x06, &[(STREAM, 0xFFFF_FFFF)]),
            0xFFFF_FFFF_0000_0006,
            0,
        ),
        (fields(0x10, &[(VMID, 5)]), 0x0000_0005_0000_0010, 0),
        (
            fields(0x13, &[(VMID, 5), (LEAF, 1), (ADDRESS, 0x12345)]),
            0x0000_0005_0000_0013,
            0x1234_5001,
        ),
        (fields(0x20, &[]), 0x20, 0),
        (fields(0x21, &[(ASID, 0xFFFF)]), 0xFFFF_0000_0000_0021, 0),
        (
            fields(0x22, &[(ASID, 1), (ADDRESS, 0xF_FFFF_FFFF_FFFF)]),
            0x0001_0000_0000_0022,
            0xFFFF_FFFF_FFFF_F000,
        ),
        (fields(0x23, &[(LEAF, 1)]), 0x23, 1),
        (fields(0x28, &[(VMID, 0xFFFF)]), 0x0000_FFFF_0000_0028, 0),
        (
            fields(0x2A, &[(VMID, 1), (ADDRESS, 0xFF_FFFF_FFFF)]),
            0x0000_0001_0000_002A,
            0x000F_FFFF_FFFF_F000,
        ),
        (fields(0x30, &[]), 0x30, 0),
        (fields(0x46, &[]), 0x46, 0),
        (fields(0x46, &[(CS, 1)]), 0x1046, 0),
        (fields(0x46, &[(CS, 2)]), 0x2046, 0),
        (fields(0x70, &[]), 0x70, 0),
        (
            fields(0x73, &[(SIZE, 15), (LEAF, 1), (ADDRESS, 0xFFF_FFFF_FFFF)]),
            0x73,
            0x00FF_FFFF_FFFF_FF01,
        ),
        (
            fields(0x12, &[(NUM, 31), (SCALE, 1), (TG, 1)]),
            0x0000_0000_0011_F012,
            0x400,
        ),
        (
            fields(0x2A, &[(SCALE, 31), (TG, 3), (TTL, 2), (TTL128, 1)]),
            0x0000_0000_01F0_002A,
            0xE80,
        ),
        (fields(0x23, &[(TG, 2), (TTL, 3)]), 0x23, 0xB00),
    ] {
        gives(checker, given, ALL, low, high);
        gives(checker, given, u64::MAX, low, high);
    }
    // Legal, and so written: ASIDs and VMIDs of more bits than the features have.
    let wide = fields(0x11, &[(VMID, 0x100), (ASID, 0xFF00)]);
    gives(checker, wide, NO_WIDE, 0xFF00_0100_0000_0011, 0);
    gives(checker, fields(0x10, &[]), S1P, 0x10, 0);
}

/// A missing feature is told before whatever else is wrong.
fn missing(checker: &mut Checker) {
    for (code, wanted) in [
        (0x05, S1P),
        (0x06, S1P),
        (0x10, S1P),
        (0x11, S1P),
        (0x12, S1P),
        (0x13, S1P),
        (0x20, S1P),
        (0x20, HYP),
        (0x21, S1P),
        (0x21, HYP),
        (0x22, HYP),
        (0x23, HYP),
        (0x28, S2P),
        (0x2A, S2P),
        (0x70, DPT),
        (0x73, DPT),
    ] {
        for features in [ALL & !wanted, !wanted] {
            refuses(checker, fields(code, &[]), features, 20);
            refuses(checker, fields(code, &[(15, 1)]), features, 20);
            refuses(checker, fields(code, &[(STREAM, 1 << 32)]), features, 20);
            refuses(checker, fields(code, &[(TTL, 9), (CS, 3)]), features, 20);
        }
        gives(checker, fields(code, &[]), ALL, code, 0);
    }
    for code in [0x01, 0x02, 0x03, 0x04, 0x30, 0x46] {
        gives(checker, fields(code, &[]), 0, code, 0);
    }
    for code in [0, 0x07, 0x14, 0x71, 0xFF, 0x105, 0x170, u64::MAX] {
        refuses(checker, fields(code, &[]), 0, 21);
        refuses(checker, fields(code, &[]), ALL, 21);
    }
}

/// Fields with too many bits, and those that no legal command has.
fn unfit(checker: &mut Checker) {
    for (code, field, too_wide) in [
        (0x03, STREAM, 1 << 32),
        (0x05, SUBSTREAM, 1 << 20),
        (0x04, RANGE, 32),
        (0x03, LEAF, 2),
        (0x10, VMID, 1 << 16),
        (0x21, ASID, 1 << 16),
        (0x12, ADDRESS, 1 << 52),
        (0x23, ADDRESS, 1 << 52),
        (0x2A, ADDRESS, 1 << 40),
        (0x73, ADDRESS, 1 << 44),
        (0x46, CS, 4),
        (0x46, CS, 3),
        (0x73, SIZE, 16),
    ] {
        refuses(checker, fields(code, &[(field, too_wide)]), ALL, 21);
        refuses(checker, fields(code, &[(field, u64::MAX)]), ALL, 21);
    }
    for given in [
        fields(0x12, &[(NUM, 32), (TG, 1)]),
        fields(0x12, &[(SCALE, 32), (TG, 1)]),
        fields(0x12, &[(NUM, 1), (TG, 4)]),
        fields(0x12, &[(NUM, 1), (TG, 1), (TTL, 4)]),
        fields(0x12, &[(NUM, 1), (TG, 1), (TTL, 1), (TTL128, 2)]),
        // Arm's combinations.
        fields(0x12, &[(NUM, 1)]),
        fields(0x13, &[(TTL, 1)]),
        fields(0x22, &[(NUM, 1), (TG, 1), (TTL128, 1)]),
        fields(0x23, &[(TG, 1)]),
        fields(0x2A, &[(TG, 2), (TTL, 1)]),
        // Fields of others.
        fields(0x01, &[(STREAM, 1)]),
        fields(0x06, &[(LEAF, 1)]),
        fields(0x03, &[(RANGE, 1)]),
        fields(0x04, &[(LEAF, 1)]),
        fields(0x13, &[(ASID, 1)]),
        fields(0x22, &[(VMID, 1)]),
        fields(0x46, &[(NUM, 1)]),
        fields(0x73, &[(TTL, 1)]),
        fields(0x30, &[(15, 1)]),
    ] {
        refuses(checker, given, ALL, 21);
    }
    for code in [0x10, 0x11, 0x12, 0x13] {
        refuses(checker, fields(code, &[(VMID, 1)]), NO_S2P, 21);
        refuses(checker, fields(code, &[(VMID, 0x100)]), NO_S2P, 21);
    }
    for code in [0x12, 0x13, 0x22, 0x23, 0x2A] {
        refuses(checker, fields(code, &[(NUM, 1), (TG, 1)]), NO_RIL, 21);
        refuses(checker, fields(code, &[(TTL, 1), (TG, 1)]), NO_RIL, 21);
    }
}

/// A slot of another length is told before whatever else is wrong.
fn slots(checker: &mut Checker) {
    let given = [
        fields(0x30, &[]),
        fields(0x70, &[]),
        fields(0x70, &[(15, 1)]),
        fields(0, &[]),
    ];
    for length in [0, 1, 15, 17, 32, 64] {
        for fields in given {
            write(checker, &fields, 0, length, (19, &vec![DIRT; length]));
        }
    }
}

/// CMDQEN, and a queue of two slots.
const TWO: u64 = 1 << 49 | 1 << 50;
const WR: u64 = 1 << 20;

/// A batch over two slots: the number and first word, what the queue holds then, by its
/// commands' low words, and the control word.
fn expect(
    checker: &mut Checker,
    control: u64,
    (commands, features): (&[u64], u64),
    (number, word): (u64, u64),
    (left, after): ([u64; 2], u64),
) {
    let mut kept = [control, 0, 7, 8, 9];
    let bytes = |words: [u64; 2]| words.map(|word| u128::from(word).to_le_bytes()).concat();
    let mut queue = bytes(OLD);
    let call = batch(commands, features);
    let reply = checker.write(&mut kept, &mut queue, call);
    let answer = [word, 0, 0, 0, 0, 0, 0, 0];
    let met = reply == Reply { number, answer } && queue == bytes(left);
    let met = met && kept == [after, 0, 7, 8, 9];
    checker.insist(met, LAW, &[control, 0, 7, 8, 9], call, (reply, &kept));
}

const OLD: [u64; 2] = [0xAAAA, 0xBBBB];

/// Commands go to the slots from WR on, and WR behind the last of them.
fn batches(checker: &mut Checker) {
    let sync = fields(0x46, &[(CS, 1)]);
    let all = fields(0x30, &[]);
    let both = [all, sync].concat();
    let one = |rd: u64, wr: u64| TWO | rd | wr * WR;
    for (control, commands, left, after) in [
        (one(0, 0), &[][..], OLD, one(0, 0)),
        (one(0, 2), &[], OLD, one(0, 2)),
        (one(0, 0), &all, [0x30, 0xBBBB], one(0, 1)),
        (one(0, 1), &all, [0xAAAA, 0x30], one(0, 2)),
        (one(0, 0), &both, [0x30, 0x1046], one(0, 2)),
        // Over the end of the queue, and of the indexes.
        (one(1, 1), &both, [0x1046, 0x30], one(1, 3)),
        (one(3, 3), &both, [0x1046, 0x30], one(3, 1)),
        (one(2, 3), &all, [0xAAAA, 0x30], one(2, 0)),
    ] {
        expect(checker, control, (commands, 0), (0, 0), (left, after));
        // Off; held by an error; an interrupt pending; an error that was acknowledged.
        for bits in [1 << 49, 1 << 40 | 1 << 47, 1 << 55, 1 << 40] {
            let (control, after) = (control ^ bits, after ^ bits);
            expect(checker, control, (commands, 0), (0, 0), (left, after));
        }
    }
}

/// The memory and the queue are looked at first, then the commands in their order, then
/// the room.
fn batches_refused(checker: &mut Checker) {
    let (good, absent, bad) = (fields(0x30, &[]), fields(0x70, &[]), fields(0, &[]));
    let free = TWO;
    let full = TWO | 2 * WR;
    for (control, commands, number, word) in [
        (free, [good, good, good].concat(), 22, 0),
        (TWO | WR, [good, good].concat(), 22, 0),
        (full, good.to_vec(), 22, 0),
        (free, [good, absent].concat(), 20, 1),
        (free, [good, bad].concat(), 21, 1),
        (free, [bad, absent].concat(), 21, 0),
        (free, [absent, bad].concat(), 20, 0),
        (full, [good, good, good, bad].concat(), 21, 3),
        (full, [good, good, absent, bad].concat(), 20, 2),
        (free, good[..15].to_vec(), 21, 0),
        (
            free,
            [good[..].to_vec(), good[..1].to_vec()].concat(),
            21,
            1,
        ),
        (
            full,
            [good[..].to_vec(), good[..1].to_vec()].concat(),
            21,
            1,
        ),
        (
            free,
            [absent[..].to_vec(), good[..1].to_vec()].concat(),
            20,
            0,
        ),
    ] {
        expect(
            checker,
            control,
            (&commands, 0),
            (number, word),
            (OLD, control),
        );
    }
    let ill_formed = TWO | 1 << 63;
    expect(checker, ill_formed, (&bad, 0), (2, 0), (OLD, ill_formed));
    for (kept, length, number, word) in [
        (&[TWO, 0, 0, 0][..], 7, 1, 0),
        (&[TWO, 2, 0, 0, 0, 2, 0, 0, 0], 7, 3, 0),
        (&[TWO, 0, 0, 0, 0, 2, 0, 0, 0], 7, 3, 1),
        (&[TWO, 0, 0, 0, 0], 7, 4, 0),
        (&[TWO, 0, 0, 0, 0], 0, 4, 0),
        (&[TWO, 0, 0, 0, 0], 16, 4, 0),
        (&[TWO, 0, 0, 0, 0], 64, 4, 0),
    ] {
        for commands in [&bad[..], &absent, &good, &[], &[good; 3].concat(), &[0]] {
            let (mut after, mut queue) = (kept.to_vec(), vec![DIRT; length]);
            let call = batch(commands, 0);
            let reply = checker.write(&mut after, &mut queue, call);
            let answer = [word, 0, 0, 0, 0, 0, 0, 0];
            let met = reply == Reply { number, answer } && queue == vec![DIRT; length];
            checker.insist(met && after == kept, LAW, kept, call, (reply, &after));
        }
    }
}
