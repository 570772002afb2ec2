//! Nights of calls with cuts and without (document 02, T-14). The night without cuts is
//! compared with the model; the one with cuts is made by the unit alone, call by call
//! beside it, and held to what the unit itself answered and left there.

mod accepted;
mod calls;
mod repeats;

use crate::call::{Call, Reply, CUT, EVENT_CALLS, FILL_CUT, NUMBERS, WRITE_CUT};
use crate::checker::Checker;
use crate::generate::random::Random;
use accepted::accepted;
use calls::Guest;

/// How many nights, and the calls of each.
const NIGHTS: u64 = 5_000;
const CALLS: u64 = 50;

/// After so many cuts at most a call is allowed enough.
const PATIENCE: u64 = 6;

const SAME: &str = "a night with cuts isn't the night without them";
const ACCEPTED: &str = "a call left words that are refused";
const REPEATED: &str = "a finished call that is made again does something else";

/// What a wrong unit breaks.
pub const LAWS: [&str; 3] = [SAME, ACCEPTED, REPEATED];

pub fn nights(checker: &mut Checker) {
    let mut random = checker.phase("nights of fifty calls, cut and made again");
    for _ in 0..NIGHTS {
        night(checker, &mut random);
    }
}

/// The three memories.
#[derive(Clone, PartialEq)]
struct Words {
    kept: Vec<u64>,
    table: Vec<u64>,
    events: Vec<u64>,
}

impl Words {
    /// Those that a call is lent: the recorder's, or the kept memory and the second table.
    fn lent(&mut self, call: &Call) -> (&mut [u64], &mut [u64]) {
        match EVENT_CALLS.contains(&call.index()) {
            true => (&mut self.events, &mut []),
            false => (&mut self.kept, &mut self.table),
        }
    }

    /// One call by the unit alone.
    fn call(&mut self, checker: &mut Checker, call: Call) -> Reply {
        let (words, table) = self.lent(&call);
        checker.alone(words, table, call)
    }

    /// Stops the program unless a law holds of a call that was made on these words, or on
    /// a copy of them.
    fn insist(&mut self, checker: &Checker, holds: bool, law: &str, (call, reply): (Call, Reply)) {
        let (words, _) = self.lent(&call);
        checker.insist(holds, law, words, call, (reply, words));
    }
}

/// The same calls on two copies of the same words.
fn night(checker: &mut Checker, random: &mut Random) {
    let mut guest = Guest::new(random);
    let mut whole = guest.words(random);
    let mut cut = whole.clone();
    checker.tally.nights.count_night();
    for _ in 0..CALLS {
        let call = guest.call(random, &whole);
        step(checker, random, call, (&mut whole, &mut cut));
    }
}

/// One call of the night: made once, and made until it isn't cut. The answers are the same
/// and so are the words; what a finished call does when it is made again is seen on a copy.
fn step(
    checker: &mut Checker,
    random: &mut Random,
    call: Call,
    (whole, cut): (&mut Words, &mut Words),
) {
    let (words, table) = whole.lent(&call);
    let uncut = checker.both(words, table, allowing(call, u64::MAX));
    let (reply, cuts) = until_finished(checker, random, (call, uncut), cut);
    checker.tally.nights.count(&call, &reply, cuts);
    let same = reply == uncut && cut == whole;
    whole.insist(checker, same, SAME, (call, reply));
    if random.once_in(3) {
        repeats::repeat(checker, random, (call, reply), cut);
    }
}

/// The call until it ends otherwise than Cut, and how often it was cut. A run's counts are
/// added up; those of the others are the last call's, since each starts anew.
fn until_finished(
    checker: &mut Checker,
    random: &mut Random,
    (call, uncut): (Call, Reply),
    words: &mut Words,
) -> (Reply, u64) {
    let patience = random.below(PATIENCE + 1);
    let due = stores(&call, &uncut);
    let mut sums = [0; 4];
    let mut cuts = 0;
    loop {
        let enough = random.pick(&[due, u64::MAX]);
        let allowance = if cuts < patience {
            few(random, due)
        } else {
            enough
        };
        let mut reply = words.call(checker, allowing(call, allowance));
        let stands = accepted(words);
        words.insist(checker, stands, ACCEPTED, (call, reply));
        add(&mut sums, &call, &mut reply);
        if !is_cut(&call, &reply) {
            return (reply, cuts);
        }
        cuts += 1;
    }
}

/// Adds a run's four counts to those before it, and tells the sums.
fn add(sums: &mut [u64; 4], call: &Call, reply: &mut Reply) {
    if let (Call::Run { .. }, 0) = (call, reply.number) {
        for (sum, count) in sums.iter_mut().zip(&mut reply.answer[1..5]) {
            *sum += *count;
            *count = *sum;
        }
    }
}

/// The stores that a whole call made.
fn stores(call: &Call, uncut: &Reply) -> u64 {
    match call {
        Call::Run { .. } => uncut.answer[2],
        _ if allowed(call) => uncut.answer[1],
        _ => 0,
    }
}

/// None, a few, or some part of what is due; now and then all of it.
fn few(random: &mut Random, due: u64) -> u64 {
    let part = random.below(due / 4 + 2);
    let small = random.below(5);
    random.pick(&[0, 1, small, small, part, part, due.saturating_sub(1), due])
}

/// Whether a call has an allowance, which then is its last number.
fn allowed(call: &Call) -> bool {
    let numbers = NUMBERS[call.index()];
    numbers.last().is_some_and(|(name, _)| *name == "allowance")
}

/// The call with this allowance, if it has one.
fn allowing(call: Call, allowance: u64) -> Call {
    let mut numbers = call.numbers();
    match numbers.last_mut() {
        Some(last) if allowed(&call) => *last = allowance,
        _ => (),
    }
    call.passing(&numbers)
}

/// Whether a call ended Cut.
pub fn is_cut(call: &Call, reply: &Reply) -> bool {
    let end = match call {
        Call::Run { .. } => CUT,
        Call::Fill { .. } | Call::TableFill { .. } => FILL_CUT,
        Call::EventWrite { .. } => WRITE_CUT,
        _ => return false,
    };
    reply.number == 0 && reply.answer[0] == end
}
