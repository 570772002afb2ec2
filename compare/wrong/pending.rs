//! Wrong units that lose the pending bit, or make it up (document 02, T-08).

use super::Around;
use crate::call::{Call, CUT, FIRST_EVENT, NAMES, RAISED};
use crate::lent::{Lent, Memory};
use crate::model::control::Control;
use crate::unit;

#[derive(Clone, Copy)]
pub enum Fault {
    /// What each consumed command makes of the bit.
    Consumed(fn(bool, &[u8]) -> bool),
    /// A run takes the bit for clear when it starts.
    Forgotten,
    /// The bit is set where the run ends, and so not if it is cut.
    Late,
    /// The bit is set before the store that moves RD.
    Early,
    /// It is set by a store of its own, after that one.
    Apart,
    /// Only the CMD_SYNC that sets the bit is counted.
    CountedOnce,
    /// A raise makes this of the bit.
    Raise(fn(bool, &[u8]) -> bool),
    /// These calls clear the bit where they aren't to.
    Clears(fn(Call) -> bool),
    /// Clearing makes this of the control word instead.
    Cleared(fn(Control) -> Control),
    /// Clearing is refused with 12, and not.
    Refused,
    Unrefused,
    /// 12 is given where this refusal is due before it.
    Before(u64),
    /// The call refuses a word with bit 55.
    IllFormed(usize),
    /// The call takes a word with this bit for well formed.
    WellFormed(usize, u32),
    /// The call tells the bit in this word of its answer.
    Tells(usize, usize),
}

/// Every wrong unit with its name.
pub fn all() -> Vec<(String, Fault)> {
    let named = NAMED.map(|(name, fault)| (name.into(), fault));
    let mut all = Vec::from(named);
    for number in 1..=3 {
        all.push((format!("12 before {number}"), Fault::Before(number)));
    }
    for (call, name) in NAMES[..FIRST_EVENT].iter().enumerate() {
        all.push((format!("{name}: bit 55 refused"), Fault::IllFormed(call)));
        let fault = Fault::WellFormed(call, 56);
        all.push((format!("{name}: bit 56 accepted"), fault));
    }
    for bit in 57..64 {
        let fault = Fault::WellFormed(STATE, bit);
        all.push((format!("state: bit {bit} accepted"), fault));
    }
    for (call, word) in [(0, 7), (STATE, 6), (CLEAR, 0)] {
        let what = format!("{}: word {word} tells bit 55", NAMES[call]);
        all.push((what, Fault::Tells(call, word)));
    }
    all
}

const STATE: usize = 6;
const CLEAR: usize = 7;

const NAMED: [(&str, Fault); 29] = [
    (
        "set on CS 0",
        Fault::Consumed(|set, bytes| set || sync(bytes, 1) || sync(bytes, 0)),
    ),
    (
        "set on CS 2",
        Fault::Consumed(|set, bytes| set || sync(bytes, 1) || sync(bytes, 2)),
    ),
    (
        "set on CS 1 of any code",
        Fault::Consumed(|set, bytes| set || cs(bytes) == 1),
    ),
    ("set on every command", Fault::Consumed(|_, _| true)),
    ("never set", Fault::Consumed(|set, _| set)),
    (
        "cleared by CS 0",
        Fault::Consumed(|set, bytes| (set || sync(bytes, 1)) && !sync(bytes, 0)),
    ),
    (
        "cleared by CS 2",
        Fault::Consumed(|set, bytes| (set || sync(bytes, 1)) && !sync(bytes, 2)),
    ),
    (
        "cleared by another command",
        Fault::Consumed(|set, bytes| (set || sync(bytes, 1)) && bytes[0] == 0x46),
    ),
    (
        "flipped by CS 1",
        Fault::Consumed(|set, bytes| set != sync(bytes, 1)),
    ),
    (
        "the last command's",
        Fault::Consumed(|_, bytes| sync(bytes, 1)),
    ),
    ("clear when a run starts", Fault::Forgotten),
    ("set where the run ends", Fault::Late),
    ("set before RD moves", Fault::Early),
    ("set by a store of its own", Fault::Apart),
    ("one CMD_SYNC counted", Fault::CountedOnce),
    ("raise clears it", Fault::Raise(|_, _| false)),
    ("raise sets it", Fault::Raise(|_, _| true)),
    (
        "raise sets it for CS 3",
        Fault::Raise(|set, bytes| set || sync(bytes, 3)),
    ),
    (
        "doorbell clears it",
        Fault::Clears(|call| matches!(call, Call::Doorbell { .. })),
    ),
    (
        "acknowledge clears it",
        Fault::Clears(|call| matches!(call, Call::Acknowledge)),
    ),
    (
        "enable clears it",
        Fault::Clears(|call| matches!(call, Call::Enable { on: 1.. })),
    ),
    (
        "disable clears it",
        Fault::Clears(|call| matches!(call, Call::Enable { on: 0 })),
    ),
    (
        "fill clears it",
        Fault::Clears(|call| matches!(call, Call::Fill { .. })),
    ),
    ("clearing moves RD", Fault::Cleared(moved)),
    (
        "clearing acknowledges",
        Fault::Cleared(|control| Control {
            gerrorn: control.gerror,
            ..control
        }),
    ),
    (
        "clearing disables",
        Fault::Cleared(|control| Control {
            enabled: false,
            ..control
        }),
    ),
    (
        "clearing stores nothing",
        Fault::Cleared(|control| Control {
            pending: true,
            ..control
        }),
    ),
    ("12 given when set", Fault::Refused),
    ("12 not given when clear", Fault::Unrefused),
];

/// RD one further, if a command waits.
fn moved(control: Control) -> Control {
    let step = u64::from(control.rd != control.wr);
    Control {
        rd: (control.rd + step) % control.ring(),
        ..control
    }
}

const PENDING: u64 = 1 << 55;

fn cs(bytes: &[u8]) -> u8 {
    bytes[1] >> 4 & 3
}

fn sync(bytes: &[u8], number: u8) -> bool {
    bytes[0] == 0x46 && cs(bytes) == number
}

/// The command at an index.
fn command<'a>(queue: &'a [u8], control: Control, index: u64) -> &'a [u8] {
    let slot = index % control.slots();
    &queue[16 * slot as usize..][..16]
}

fn put(kept: &mut Memory, pending: bool) {
    let word = &mut kept.inner_mut()[0];
    *word = *word & !PENDING | u64::from(pending) << 55;
}

impl Fault {
    /// Puts the fault into a call that the unit has answered; the number that is
    /// returned then.
    pub fn spoil(self, call: Call, around: Around) -> u64 {
        let Around {
            before,
            table,
            bytes,
            number,
            kept,
            answer,
        } = around;
        let word = before.first().copied().unwrap_or(0);
        let was = word & PENDING != 0;
        let clear = call.index() == CLEAR;
        match (self, number) {
            (Fault::IllFormed(of), _) if of == call.index() && number != 1 && was => {
                kept.inner_mut().copy_from_slice(before);
                kept.table_mut().copy_from_slice(table);
                kept.bytes_mut().copy_from_slice(bytes);
                answer.inner_mut().fill(0);
                return 2;
            }
            (Fault::WellFormed(of, bit), 2) if of == call.index() && word >> bit & 1 == 1 => {
                return without(bit, call, kept, answer);
            }
            (Fault::Before(due), _) if clear && number == due && !was => {
                answer.inner_mut().fill(0);
                return 12;
            }
            (Fault::Unrefused, 12) => return 0,
            (Fault::Refused, 0) if clear => {
                kept.inner_mut().copy_from_slice(before);
                return 12;
            }
            (Fault::Cleared(made), 0) if clear => {
                let control = Control::fields(kept.inner()[0]);
                kept.inner_mut()[0] = made(control).pack();
            }
            (Fault::Clears(of), 0) if of(call) => put(kept, false),
            (Fault::Tells(of, place), 0) if of == call.index() => {
                answer.inner_mut()[place] = was.into();
            }
            (_, 0) => self.spoil_run(call, word, kept, answer.inner_mut()),
            _ => (),
        }
        number
    }

    /// The same for a run that was carried out.
    fn spoil_run(self, call: Call, before: u64, kept: &mut Memory, answer: &mut [u64]) {
        let Call::Run {
            queue, allowance, ..
        } = call
        else {
            return;
        };
        let was = before & PENDING != 0;
        let control = Control::fields(kept.inner()[0]);
        let first = Control::fields(before).rd;
        let next = command(queue, control, control.rd);
        let new = !was && control.pending;
        match self {
            Fault::Consumed(made) => {
                let indexes = first..first + answer[1];
                let commands = indexes.map(|index| command(queue, control, index));
                put(kept, commands.fold(was, made));
            }
            Fault::Forgotten if answer[1] > 0 => put(kept, answer[4] > 0),
            Fault::Late if answer[0] == CUT => put(kept, was),
            Fault::Early if answer[0] == CUT && sync(next, 1) => put(kept, true),
            Fault::Apart if new && answer[2] == allowance => {
                put(kept, false);
                answer[0] = CUT;
            }
            Fault::Apart if new => answer[2] += 1,
            Fault::CountedOnce => answer[4] = new.into(),
            Fault::Raise(made) if answer[0] == RAISED => put(kept, made(control.pending, next)),
            _ => (),
        }
    }
}

/// The call on a memory whose control word lacks the bit; it comes back with it.
fn without(bit: u32, call: Call, kept: &mut Memory, answer: &mut Lent) -> u64 {
    let mut copy = kept.inner().to_vec();
    copy[0] ^= 1 << bit;
    let mut copy = kept.beside(&copy);
    let number = unit::perform(call, &mut copy, answer);
    kept.take(&copy);
    kept.inner_mut()[0] ^= 1 << bit;
    number
}
