//! Slots that are refused or not, written to all the same, and what the answer tells.

use super::{Named, Slot};

type Made = fn(&Named, &[u8], &mut Slot);

/// The unit's refusal of the command itself, had the slot been right.
fn own(named: &Named) -> u64 {
    named.on_unit(0).0
}

/// Written into the first bytes of a slot that has so many.
fn into(named: &Named, slot: &mut Slot, so: fn(usize) -> bool) {
    if slot.number == 19 && so(slot.bytes.len()) {
        let (number, command) = named.on_unit(0);
        slot.number = number;
        if number == 0 {
            let bytes = command.to_le_bytes();
            let length = slot.bytes.len().min(16);
            slot.bytes[..length].copy_from_slice(&bytes[..length]);
        }
    }
}

pub const ALL: &[(&str, Made)] = &[
    ("a slot of 17 bytes", |named, _, slot| {
        into(named, slot, |length| length == 17)
    }),
    ("a slot of 15 bytes", |named, _, slot| {
        into(named, slot, |length| length == 15)
    }),
    ("a slot of 32 bytes", |named, _, slot| {
        into(named, slot, |length| length == 32)
    }),
    ("any longer slot", |named, _, slot| {
        into(named, slot, |length| length > 16)
    }),
    ("any shorter slot", |named, _, slot| {
        into(named, slot, |length| length < 16)
    }),
    ("no slot", |named, _, slot| {
        into(named, slot, |length| length == 0)
    }),
    ("whole slots", |named, _, slot| {
        into(named, slot, |length| length > 0 && length % 16 == 0)
    }),
    ("a slot's length of 8 bits", |named, _, slot| {
        into(named, slot, |length| length % (1 << 8) == 16)
    }),
    ("a slot's length of 16 bits", |named, _, slot| {
        into(named, slot, |length| length % (1 << 16) == 16)
    }),
    ("a slot's length of 20 bits", |named, _, slot| {
        into(named, slot, |length| length % (1 << 20) == 16)
    }),
    ("20 before 19", |named, _, slot| {
        if slot.number == 19 && own(named) == 20 {
            slot.number = 20;
        }
    }),
    ("21 before 19", |named, _, slot| {
        if slot.number == 19 && own(named) == 21 {
            slot.number = 21;
        }
    }),
    ("19 not given without features", |named, _, slot| {
        if slot.number == 19 && named.features == 0 {
            slot.number = own(named);
        }
    }),
    ("4 for a slot's length", |_, _, slot| {
        if slot.number == 19 {
            slot.number = 4;
        }
    }),
    ("the code written before 21", |named, _, slot| {
        if slot.number == 21 {
            slot.bytes[0] = named.code() as u8;
        }
    }),
    ("the code written before 20", |named, _, slot| {
        if slot.number == 20 {
            slot.bytes[0] = named.code() as u8;
        }
    }),
    ("the slot cleared before 21", |_, _, slot| {
        if slot.number == 21 {
            slot.bytes.fill(0);
        }
    }),
    ("the slot cleared before 20", |_, _, slot| {
        if slot.number == 20 {
            slot.bytes.fill(0);
        }
    }),
    ("a longer slot cleared before 19", |_, _, slot| {
        if slot.number == 19 && slot.bytes.len() > 16 {
            slot.bytes[..16].fill(0);
        }
    }),
    ("a shorter slot's first byte before 19", |named, _, slot| {
        if slot.number == 19 && !slot.bytes.is_empty() && slot.bytes.len() < 16 {
            slot.bytes[0] = named.code() as u8;
        }
    }),
    ("a command written tells its bytes", |_, _, slot| {
        if slot.number == 0 {
            slot.answer[0] = 16;
        }
    }),
    ("a command written tells its code", |named, _, slot| {
        if slot.number == 0 {
            slot.answer[0] = named.code();
        }
    }),
    ("a command written tells something behind", |_, _, slot| {
        if slot.number == 0 {
            slot.answer[7] = 1;
        }
    }),
    ("20 tells the features", |named, _, slot| {
        if slot.number == 20 {
            slot.answer[0] = named.features;
        }
    }),
    ("21 tells the code", |named, _, slot| {
        if slot.number == 21 {
            slot.answer[0] = named.code();
        }
    }),
    ("21 tells a field", |_, _, slot| {
        if slot.number == 21 {
            slot.answer[1] = 15;
        }
    }),
    ("19 tells the length", |_, _, slot| {
        if slot.number == 19 {
            slot.answer[0] = slot.bytes.len() as u64;
        }
    }),
];
