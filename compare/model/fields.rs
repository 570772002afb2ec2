//! The words by which a command is named to the writers, and where its fields stand in
//! the 128 bits (document 02, T-10; document 01, Commands and their scopes).

use super::command::Bits;

/// A command by its code and its fields, each in a word of its own. Those that the
/// command doesn't have are 0.
pub type Fields = [u64; 16];

pub const CODE: usize = 0;
pub const STREAM: usize = 1;
pub const SUBSTREAM: usize = 2;
pub const RANGE: usize = 3;
pub const LEAF: usize = 4;
pub const VMID: usize = 5;
pub const ASID: usize = 6;
/// Without its low 12 bits.
pub const ADDRESS: usize = 7;
pub const CS: usize = 8;
pub const NUM: usize = 9;
pub const SCALE: usize = 10;
pub const TG: usize = 11;
pub const TTL: usize = 12;
pub const TTL128: usize = 13;
pub const SIZE: usize = 14;

/// A field, and its highest and lowest bit in the command.
pub type Place = (usize, Bits);

const AT_STREAM: Place = (STREAM, (63, 32));
const AT_LEAF: Place = (LEAF, (64, 64));
const AT_VMID: Place = (VMID, (47, 32));
const AT_ASID: Place = (ASID, (63, 48));
const AT_ADDRESS: Place = (ADDRESS, (127, 76));
const AT_NUM: Place = (NUM, (16, 12));
const AT_SCALE: Place = (SCALE, (24, 20));
const AT_TG: Place = (TG, (75, 74));
const AT_TTL: Place = (TTL, (73, 72));
const AT_TTL128: Place = (TTL128, (71, 71));

/// The fields of a range follow those that a command by address has anyway.
const BY_ADDRESS: [Place; 9] = [
    AT_VMID, AT_ASID, AT_LEAF, AT_ADDRESS, AT_NUM, AT_SCALE, AT_TG, AT_TTL, AT_TTL128,
];
const WITHOUT_ASID: [Place; 8] = [
    AT_VMID, AT_LEAF, AT_ADDRESS, AT_NUM, AT_SCALE, AT_TG, AT_TTL, AT_TTL128,
];
const STAGE_2: [Place; 8] = [
    AT_VMID,
    AT_LEAF,
    (ADDRESS, (115, 76)),
    AT_NUM,
    AT_SCALE,
    AT_TG,
    AT_TTL,
    AT_TTL128,
];

/// Those of each code; None for codes that aren't commands. What isn't looked at is no
/// field.
pub fn places(code: u64) -> Option<&'static [Place]> {
    Some(match code {
        0x01 | 0x02 | 0x20 | 0x30 | 0x70 => &[],
        0x03 => &[AT_STREAM, AT_LEAF],
        0x04 => &[AT_STREAM, (RANGE, (68, 64))],
        0x05 => &[(SUBSTREAM, (31, 12)), AT_STREAM, AT_LEAF],
        0x06 => &[AT_STREAM],
        0x10 | 0x28 => &[AT_VMID],
        0x11 => &[AT_VMID, AT_ASID],
        0x12 => &BY_ADDRESS,
        0x13 => &WITHOUT_ASID,
        0x21 => &[AT_ASID],
        // The hypervisor's have no VMID.
        0x22 => BY_ADDRESS.split_at(1).1,
        0x23 => WITHOUT_ASID.split_at(1).1,
        0x2A => &STAGE_2,
        0x46 => &[(CS, (13, 12))],
        0x73 => &[AT_LEAF, (SIZE, (75, 72)), (ADDRESS, (119, 76))],
        _ => return None,
    })
}

/// The bits of a command that are looked at: of 01 and 02 the code and bit 10, of 46 the
/// code, CS and what is Reserved there, of others all.
pub fn looked_at(code: u64) -> u128 {
    match code {
        0x01 | 0x02 => 0x4FF,
        0x46 => 0xF03F_FFFF,
        _ => u128::MAX,
    }
}

fn ones((high, low): Bits) -> u64 {
    u64::MAX >> (63 + low - high)
}

/// The fields of a command with a known code; None of another.
pub fn read(command: u128) -> Option<Fields> {
    let code = command as u64 & 0xFF;
    let mut fields = [0; 16];
    fields[CODE] = code;
    for &(field, bits) in places(code)? {
        fields[field] = (command >> bits.1) as u64 & ones(bits);
    }
    Some(fields)
}

/// The command of those fields; None if one of them is too wide or isn't the code's.
pub fn put(fields: &Fields) -> Option<u128> {
    let places = places(fields[CODE])?;
    let mut command = u128::from(fields[CODE]);
    for (field, &value) in fields.iter().enumerate().skip(1) {
        match places.iter().find(|(own, _)| *own == field) {
            Some(&(_, bits)) if value <= ones(bits) => command |= u128::from(value) << bits.1,
            None if value == 0 => (),
            _ => return None,
        }
    }
    Some(command)
}
