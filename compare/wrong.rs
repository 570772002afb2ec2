//! Wrong units: the unit with one fault put around it. The comparison has to
//! catch each of them, and the gate sees to it.

mod asked;
mod check;
mod doubles;
mod events;
mod forms;
mod hyp;
mod nights;
mod passed;
mod pending;
mod ranges;
mod reasons;
mod regions;
mod seen;
mod upper;
mod writer;

use crate::call::{Call, FIRST_EVENT, NAMES, NUMBERS};
use crate::lent::{Lent, Memory};
use crate::limits::{words, REGIONS, ROWS, SLOTS};
use crate::phases::nights::LAWS;
use crate::unit;
use std::process::Command;
use std::sync::atomic::{AtomicUsize, Ordering};
use std::sync::Mutex;
use std::thread;

#[derive(Clone, Copy)]
enum Fault {
    /// Two numbers of a call have changed places.
    Exchanged(usize, usize, usize),
    /// A number's top bit is lost.
    Narrow(usize, usize),
    /// A number is taken for 0 if its top bit is set, which nobody looks at.
    Shy(usize, usize),
    /// A word of a call's answer, after refusal 3 or 14 or else after 0, never gets to
    /// the limit.
    Short(usize, u64, usize, u64),
    /// A call doesn't see what is wrong with the last row of the largest table.
    Unchecked(usize),
    /// The last row of the largest table answers no transaction.
    Unseen,
    /// A run leaves that row where it is.
    Unremoved,
    /// Commands are read with bits of their high word lost.
    Read(u64, u64),
    /// The queue's length is taken modulo 2^16, which the largest one has.
    Wrapped,
    /// A run tells another reason or slot.
    Mistold(reasons::Fault),
    /// The pending bit is set, kept or cleared otherwise.
    Pending(pending::Fault),
    /// The upper half is another.
    Upper(upper::Fault),
    /// Other fills double a row.
    Doubles(doubles::Fault),
    /// The event recorder does something else.
    Events(events::Fault),
    /// The hypervisor's rows and commands are others.
    Hyp(hyp::Fault),
    /// Ranges are others.
    Ranges(ranges::Fault),
    /// The second table is another.
    Regions(regions::Fault),
    /// Commands and batches are written otherwise.
    Writer(writer::Fault),
    /// Batches are checked otherwise.
    Check(check::Fault),
    /// A call goes past some rows.
    Passed(passed::Fault),
    /// A call that is cut or made again does something else.
    Nights(nights::Fault),
}

pub struct Wrong {
    pub name: String,
    fault: Fault,
}

const RUN: usize = 0;
const TRANSLATE: usize = 5;
const STATE: usize = 6;
const TABLE_FILL: usize = 8;

/// A call that the unit has answered: the memory, the second table and the bytes before,
/// the number, and what is lent, as the unit left it.
struct Around<'a> {
    before: &'a [u64],
    table: &'a [u64],
    bytes: &'a [u8],
    number: u64,
    kept: &'a mut Memory,
    answer: &'a mut Lent,
}

/// Every wrong unit.
pub fn all() -> Vec<Wrong> {
    let mut all = parameters();
    let mut add = |name: String, fault| all.push(Wrong { name, fault });
    for (call, number, word, limit, what) in [
        (RUN, 0, 1, SLOTS, "commands consumed"),
        (RUN, 0, 2, SLOTS + ROWS + REGIONS, "stores"),
        (RUN, 0, 3, ROWS + REGIONS, "rows removed"),
        (RUN, 0, 4, SLOTS, "CMD_SYNCs"),
        (RUN, 0, 6, SLOTS - 1, "the slot"),
        (STATE, 0, 5, ROWS, "used rows"),
        (STATE, 3, 0, ROWS - 1, "the row that is refused"),
        (RUN, 14, 0, REGIONS - 1, "the table's row that is refused"),
        (TABLE_FILL, 14, 0, REGIONS - 1, "the same by a fill"),
    ] {
        let fault = Fault::Short(call, number, word, limit);
        add(format!("{what} below {limit}"), fault);
    }
    for (call, name) in NAMES[..FIRST_EVENT].iter().enumerate() {
        let what = format!("{name}: the last row ill formed");
        add(what, Fault::Unchecked(call));
    }
    add("the last row answers nothing".into(), Fault::Unseen);
    add("the last row is not removed".into(), Fault::Unremoved);
    add("04: Range of four bits".into(), Fault::Read(0x04, 1 << 4));
    add("03: Leaf not read".into(), Fault::Read(0x03, 1));
    add("a queue's length of 16 bits".into(), Fault::Wrapped);
    all.extend(requests());
    all
}

/// Those of document 02's requests.
fn requests() -> Vec<Wrong> {
    let mut all = Vec::new();
    let mut add = |name: String, fault| all.push(Wrong { name, fault });
    for (name, fault) in reasons::ALL {
        add(name.into(), Fault::Mistold(fault));
    }
    for (name, fault) in pending::all() {
        add(name, Fault::Pending(fault));
    }
    for (name, fault) in upper::all() {
        add(name, Fault::Upper(fault));
    }
    for (name, fault) in doubles::all() {
        add(name, Fault::Doubles(fault));
    }
    for (name, fault) in events::all() {
        add(name, Fault::Events(fault));
    }
    for (name, fault) in hyp::all() {
        add(name, Fault::Hyp(fault));
    }
    for (name, fault) in ranges::all() {
        add(name, Fault::Ranges(fault));
    }
    for (name, fault) in regions::all() {
        add(name, Fault::Regions(fault));
    }
    for (name, fault) in writer::all() {
        add(name, Fault::Writer(fault));
    }
    for (name, fault) in check::all() {
        add(name, Fault::Check(fault));
    }
    for (name, fault) in passed::all() {
        add(name, Fault::Passed(fault));
    }
    for (name, fault) in nights::all() {
        add(name, Fault::Nights(fault));
    }
    all
}

/// Those that take a number in another's place, or not whole.
fn parameters() -> Vec<Wrong> {
    let mut all = Vec::new();
    let mut add = |name: String, fault| all.push(Wrong { name, fault });
    for (call, numbers) in NUMBERS.iter().enumerate() {
        for (place, (name, _)) in numbers.iter().enumerate() {
            for (other, (second, _)) in numbers.iter().enumerate().skip(place + 1) {
                let what = format!("{}: {name} and {second} exchanged", NAMES[call]);
                add(what, Fault::Exchanged(call, place, other));
            }
            let what = format!("{}: the top bit of {name}", NAMES[call]);
            let unread = matches!(*name, "features" | "how");
            let fault = if unread { Fault::Shy } else { Fault::Narrow };
            add(what, fault(call, place));
        }
    }
    all
}

/// Runs this program on each wrong unit; whether all were caught.
pub fn all_caught() -> bool {
    let all = all();
    let next = AtomicUsize::new(0);
    let missed = Mutex::new(Vec::new());
    let try_all = || {
        while let Some(wrong) = all.get(next.fetch_add(1, Ordering::Relaxed)) {
            if !caught(wrong) {
                missed.lock().expect("no panic").push(&wrong.name);
            }
        }
    };
    let workers = thread::available_parallelism().map_or(1, usize::from);
    thread::scope(|scope| (0..workers).for_each(|_| drop(scope.spawn(try_all))));
    let missed = missed.into_inner().expect("no panic");
    for name in &missed {
        println!("not caught: {name}");
    }
    println!("{} wrong units, {} not caught", all.len(), missed.len());
    missed.is_empty() && !all.is_empty()
}

/// Whether a run on the wrong unit ends with a difference.
fn caught(wrong: &Wrong) -> bool {
    let program = std::env::current_exe().expect("the program's own file");
    let ran = Command::new(program).args(["wrong", &wrong.name]).output();
    let ran = ran.expect("a run of the program");
    let told = String::from_utf8_lossy(&ran.stdout);
    let differs = told.contains("unit and model differ");
    let broken = wrong.cut() && LAWS.iter().any(|law| told.contains(law));
    ran.status.code() == Some(1) && (differs || broken)
}

impl Wrong {
    /// Whether it is a wrong writer.
    pub fn writes(&self) -> bool {
        matches!(self.fault, Fault::Writer(_))
    }

    /// Whether it checks batches wrongly.
    pub fn checks(&self) -> bool {
        matches!(self.fault, Fault::Check(_))
    }

    /// Whether it is wrong where a call is cut or made again.
    pub fn cut(&self) -> bool {
        matches!(self.fault, Fault::Nights(_))
    }

    /// Makes the call as `unit::perform` does, with the fault.
    pub fn perform(&self, call: Call, kept: &mut Memory, answer: &mut Lent) -> u64 {
        match self.fault {
            Fault::Upper(fault) => return fault.perform(call, kept, answer),
            Fault::Doubles(fault) => return fault.perform(call, kept, answer),
            Fault::Hyp(fault) => return fault.perform(call, kept, answer),
            Fault::Ranges(fault) => return fault.perform(call, kept, answer),
            Fault::Regions(fault) => return fault.perform(call, kept, answer),
            Fault::Writer(fault) => return fault.perform(call, kept, answer),
            Fault::Check(fault) => return fault.perform(call, kept, answer),
            Fault::Passed(fault) => return fault.perform(call, kept, answer),
            Fault::Nights(fault) => return fault.perform(call, kept, answer),
            _ => (),
        }
        let before = kept.copy();
        let number = match (call, self.seen(call)) {
            (
                Call::Run {
                    features,
                    allowance,
                    ..
                },
                Some(queue),
            ) => {
                let queue = &queue;
                let call = Call::Run {
                    queue,
                    features,
                    allowance,
                };
                unit::perform(call, kept, answer)
            }
            _ => unit::perform(self.passed(call), kept, answer),
        };
        self.after(call, &before, number, kept, answer)
    }

    /// The queue of a run as the unit sees it, if that is another.
    fn seen(&self, call: Call) -> Option<Vec<u8>> {
        match (self.fault, call) {
            (Fault::Read(code, lost), Call::Run { queue, .. }) => Some(misread(queue, code, lost)),
            (Fault::Wrapped, Call::Run { queue, .. }) => {
                Some(queue[..queue.len() % (1 << 16)].to_vec())
            }
            _ => None,
        }
    }

    /// The call as it gets to the unit.
    fn passed<'a>(&self, call: Call<'a>) -> Call<'a> {
        let mut numbers = call.numbers();
        let top = |place: usize| 1 << (NUMBERS[call.index()][place].1 - 1);
        match self.fault {
            Fault::Exchanged(of, one, other) if of == call.index() => numbers.swap(one, other),
            Fault::Narrow(of, place) if of == call.index() => numbers[place] &= !top(place),
            Fault::Shy(of, place) if of == call.index() && numbers[place] & top(place) != 0 => {
                numbers[place] = 0
            }
            _ => (),
        }
        call.passing(&numbers)
    }

    /// What comes back from the unit, once it was called.
    fn after(
        &self,
        call: Call,
        before: &Memory,
        number: u64,
        kept: &mut Memory,
        answer: &mut Lent,
    ) -> u64 {
        let last = words(ROWS - 1);
        let row = answer.inner()[0];
        let (before, table, bytes) = (before.inner(), before.table(), before.bytes());
        match self.fault {
            Fault::Pending(_) | Fault::Events(_) => {
                let around = Around {
                    before,
                    table,
                    bytes,
                    number,
                    kept,
                    answer,
                };
                return self.spoil(call, around);
            }
            Fault::Mistold(fault) if number == 0 => {
                let controls = (before[0], kept.inner()[0]);
                fault.mistell(call, controls, answer.inner_mut());
            }
            Fault::Short(of, told, word, limit) if of == call.index() && told == number => {
                let short = answer.inner()[word].min(limit - 1);
                answer.inner_mut()[word] = short;
            }
            Fault::Unchecked(of) if of == call.index() && number == 3 && row == ROWS - 1 => {
                return seen::without(call, kept, answer, |number, _| number as u64 == ROWS - 1);
            }
            Fault::Unseen if call.index() == TRANSLATE && number == 0 && before.len() > last => {
                return seen::without(call, kept, answer, |number, _| number as u64 == ROWS - 1);
            }
            Fault::Unremoved if call.index() == RUN && number == 0 && before.len() > last => {
                kept.inner_mut()[last] = before[last];
            }
            _ => (),
        }
        number
    }

    /// The same for the faults that a request of document 02 has.
    fn spoil(&self, call: Call, around: Around) -> u64 {
        match self.fault {
            Fault::Pending(fault) => fault.spoil(call, around),
            Fault::Events(fault) => fault.spoil(call, around),
            _ => around.number,
        }
    }
}

/// The queue with bits of the high word lost in each command of a code.
fn misread(queue: &[u8], code: u64, lost: u64) -> Vec<u8> {
    let mut queue = queue.to_vec();
    for slot in queue.chunks_exact_mut(16) {
        if u64::from(slot[0]) == code {
            slot[8] &= !(lost as u8);
        }
    }
    queue
}
