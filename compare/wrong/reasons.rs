//! Wrong units that know when to raise, but not what for or where (document 02,
//! T-09).

use crate::call::{Call, CUT, RAISED};
use crate::generate::random::Random;
use crate::lent::{Lent, Memory};
use crate::model::control::Control;
use crate::unit;

#[derive(Clone, Copy)]
pub enum Fault {
    /// Reasons 1 to 4 are told as these.
    Told([u64; 4]),
    /// So they are for one code only.
    Of(u8, [u64; 4]),
    /// Reserved bits are looked for before features.
    ReservedFirst,
    /// CS is looked at before Reserved bits.
    ParameterFirst,
    /// A VMID of 10 to 13 wants S2P, as the codes 28 and 2A do.
    VmidAbsent,
    /// A VMID of 28 and 2A without S2P is Reserved before it is absent.
    VmidReserved,
    /// The reason is the next command's, if that is illegal too.
    NextReason,
    /// The slot is RD, with its wrap bit.
    WrapBit,
    /// The slot is the next one, as if RD had moved.
    NextSlot,
    /// The slot is that of the run's first command.
    FirstSlot,
    NoSlot,
    /// Another end carries what the command at RD would raise with.
    Carried(u64),
    /// Nothing is carried if no store is left.
    Spent,
}

pub const ALL: [(&str, Fault); 22] = [
    ("reasons 1 and 2 exchanged", Fault::Told([2, 1, 3, 4])),
    ("reason 3 told as 2", Fault::Told([1, 2, 2, 4])),
    ("reason 4 told as 3", Fault::Told([1, 2, 3, 3])),
    ("reason always 1", Fault::Told([1; 4])),
    ("46: CS 3 told as Reserved", Fault::Of(0x46, [1, 2, 3, 3])),
    ("01: bit 10 told as bad", Fault::Of(0x01, [1, 2, 4, 4])),
    ("02: bit 10 told as bad", Fault::Of(0x02, [1, 2, 4, 4])),
    ("40 told as absent", Fault::Of(0x40, [2, 2, 3, 4])),
    ("Reserved bits before features", Fault::ReservedFirst),
    ("46: CS before Reserved bits", Fault::ParameterFirst),
    ("10 to 13: VMID told as absent", Fault::VmidAbsent),
    ("28 and 2A: VMID told as Reserved", Fault::VmidReserved),
    ("the reason of the next command", Fault::NextReason),
    ("the slot with the wrap bit", Fault::WrapBit),
    ("the slot of the next command", Fault::NextSlot),
    ("the slot of the first command", Fault::FirstSlot),
    ("the slot always 0", Fault::NoSlot),
    ("Off carries a reason", Fault::Carried(0)),
    ("Held carries a reason", Fault::Carried(1)),
    ("Empty carries a reason", Fault::Carried(2)),
    ("Cut carries a reason", Fault::Carried(CUT)),
    ("no reason with the last store", Fault::Spent),
];

const S2P: u64 = 0b10;

impl Fault {
    /// Puts the fault into the answer of a run that was carried out, given the
    /// control word before and after it.
    pub fn mistell(self, call: Call, (before, after): (u64, u64), answer: &mut [u64]) {
        let Call::Run {
            queue,
            features,
            allowance,
        } = call
        else {
            return;
        };
        let control = Control::fields(after);
        let slot = control.slot();
        let next = (slot + 1) % control.slots();
        let command = |slot: u64| &queue[16 * slot as usize..][..16];
        match self {
            Fault::Carried(end) if answer[0] == end => {
                let reason = reason(command(slot), features);
                if reason != 0 {
                    answer[5..7].copy_from_slice(&[reason, slot]);
                }
            }
            _ if answer[0] != RAISED => (),
            Fault::WrapBit => answer[6] = control.rd,
            Fault::NextSlot => answer[6] = next,
            Fault::FirstSlot => answer[6] = Control::fields(before).slot(),
            Fault::NoSlot => answer[6] = 0,
            Fault::Spent if answer[2] == allowance => answer[5..7].fill(0),
            Fault::NextReason => match reason(command(next), features) {
                0 => (),
                other => answer[5] = other,
            },
            _ => answer[5] = self.reason(command(slot), features, answer[5]),
        }
    }

    /// What it tells instead of a reason.
    fn reason(self, command: &[u8], features: u64, right: u64) -> u64 {
        let code = command[0];
        let told = |others: [u64; 4]| others[right as usize - 1];
        let vmid_without_s2p = features & S2P == 0 && command[4..6] != [0, 0];
        match self {
            Fault::Told(others) => told(others),
            Fault::Of(only, others) if code == only => told(others),
            Fault::ReservedFirst if right == 2 && reason(command, 0b1111) == 3 => 3,
            Fault::ParameterFirst if code == 0x46 && command[1] & 0x30 == 0x30 => 4,
            Fault::VmidAbsent if (0x10..=0x13).contains(&code) && vmid_without_s2p => 2,
            Fault::VmidReserved if [0x28, 0x2A].contains(&code) && vmid_without_s2p => 3,
            _ => right,
        }
    }
}

/// The reason that the unit gives for a command alone in its queue; 0 if it is
/// legal.
fn reason(command: &[u8], features: u64) -> u64 {
    let control = Control {
        wr: 1,
        enabled: true,
        ..Control::fields(0)
    };
    let mut random = Random::new(0);
    let mut kept = Memory::new(&[control.pack(), 0, 0, 0, 0], &[0, 0], &mut random);
    let mut answer = Lent::new(&[0; 8], &mut random);
    let call = Call::Run {
        queue: command,
        features,
        allowance: 1,
    };
    unit::perform(call, &mut kept, &mut answer);
    answer.inner()[5]
}
