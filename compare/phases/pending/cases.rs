//! Document 02's sentences about the pending bit, with the words that they leave;
//! they hold the model to the paper as well as the unit.

use super::{bytes, run, ALL, PENDING};
use crate::call::{Asked, Call};
use crate::checker::Checker;

/// One slot, enabled: nothing waits, one command waits, it is consumed.
const IDLE: u64 = 0x0002_0000_0000_0000;
const ONE: u64 = 0x0002_0000_0010_0000;
const DONE: u64 = 0x0002_0000_0010_0001;
/// The command raised; it was acknowledged.
const RAISED: u64 = 0x0002_8100_0010_0000;
const SEEN: u64 = 0x0003_8100_0010_0000;

pub fn cases(checker: &mut Checker) {
    checker.phase("document 02's pending bit");
    formed(checker);
    consumed(checker);
    swallowed(checker);
    kept(checker);
    cleared(checker);
}

/// One call on a control word and an empty row: its number, the first words of its
/// answer, and the control word after it.
fn leaves(checker: &mut Checker, before: u64, call: Call, told: (u64, &[u64]), after: u64) {
    let before = [before, 0, 0, 0, 0];
    let mut kept = before;
    let reply = checker.call(&mut kept, call);
    let (number, words) = told;
    let same = reply.number == number && reply.answer.starts_with(words);
    let met = same && kept[0] == after;
    let law = "a case of document 02 isn't met";
    checker.insist(met, law, &before, call, (reply, &kept));
}

/// Well-formedness now allows bit 55, and no bit above it, to any call.
fn formed(checker: &mut Checker) {
    let queue = bytes(&[(0x46, 0)]);
    let words = [0x0B, 0x77, 0, 0];
    let fill = Call::Fill {
        row: 0,
        words,
        allowance: 0,
    };
    let asked = Asked {
        stream: 0x77,
        substream: 0,
        address: 0,
        how: 0,
        memattr: 15,
        sh: 0,
        hints: 0,
    };
    let calls = [
        (run(&queue, ALL, 0), vec![2, 0, 0, 0, 0]),
        (fill, vec![1, 0]),
        (Call::Doorbell { wr: 0 }, vec![]),
        (Call::Enable { on: 1 }, vec![]),
        (Call::Translate(asked), vec![2]),
        (Call::State, vec![0, 0, 0, 0, 1, 0, 0, 0]),
    ];
    for (call, told) in &calls {
        for word in [IDLE, IDLE | PENDING] {
            leaves(checker, word, *call, (0, told), word);
        }
    }
    let others = [Call::Acknowledge, Call::ClearPending];
    for bit in 56..64 {
        for pending in [0, PENDING] {
            // The error is active, so that an acknowledge has nothing else to refuse.
            let word = RAISED | pending | 1 << bit;
            for call in calls.iter().map(|(call, _)| *call).chain(others) {
                leaves(checker, word, call, (2, &[0; 8]), word);
            }
        }
    }
}

/// Set in the store that moves RD, by CMD_SYNC with CS 1 and nothing else; a set
/// bit stays set. The count is what it was.
fn consumed(checker: &mut Checker) {
    for (low, syncs, after) in [
        (0x0046, 0, DONE),
        (0x1046, 1, DONE | PENDING),
        (0x2046, 0, DONE),
        (0x0030, 0, DONE),
        (0x1001, 0, DONE),
        (0x1005, 0, DONE),
    ] {
        let queue = bytes(&[(low, 0)]);
        for (before, after) in [(ONE, after), (ONE | PENDING, DONE | PENDING)] {
            let (none, one) = (run(&queue, ALL, 0), run(&queue, ALL, 1));
            let told = [2, 1, 1, 0, syncs, 0, 0, 0];
            leaves(checker, before, none, (0, &[4, 0, 0, 0, 0]), before);
            leaves(checker, before, one, (0, &told), after);
            leaves(checker, after, one, (0, &[2, 0, 0, 0, 0]), after);
        }
    }
}

/// Two slots: the cut comes after the CMD_SYNC, and whoever was to be told of it
/// never is. The bit tells, once the run is done and until it is cleared.
fn swallowed(checker: &mut Checker) {
    let queue = bytes(&[(0x1046, 0), (0x46, 0)]);
    let go = |allowance| run(&queue, ALL, allowance);
    let mut word = 0x0006_0000_0020_0000;
    for (call, number, told, after) in [
        (go(1), 0, [4, 1, 1, 0, 1], 0x0086_0000_0020_0001),
        (go(0), 0, [4, 0, 0, 0, 0], 0x0086_0000_0020_0001),
        (go(9), 0, [2, 1, 1, 0, 0], 0x0086_0000_0020_0002),
        (go(9), 0, [2, 0, 0, 0, 0], 0x0086_0000_0020_0002),
        (Call::ClearPending, 0, [0; 5], 0x0006_0000_0020_0002),
        (go(9), 0, [2, 0, 0, 0, 0], 0x0006_0000_0020_0002),
        (Call::ClearPending, 12, [0; 5], 0x0006_0000_0020_0002),
    ] {
        leaves(checker, word, call, (number, &told), after);
        word = after;
    }
}

/// Every other control store keeps the bit, be it set or not.
fn kept(checker: &mut Checker) {
    // CS 3 has the bit of CS 1 in it; it is consumed by no one.
    let queue = bytes(&[(0x3046, 0)]);
    let off = IDLE ^ 0x0002_0000_0000_0000;
    for pending in [0, PENDING] {
        for (before, call, told, after) in [
            (IDLE, Call::Doorbell { wr: 1 }, vec![], ONE),
            (ONE, Call::Doorbell { wr: 1 }, vec![], ONE),
            (ONE, run(&queue, 0, 1), vec![3, 0, 1, 0, 0, 4], RAISED),
            (RAISED, run(&queue, 0, 1), vec![1, 0, 0, 0, 0, 0], RAISED),
            (RAISED, Call::Acknowledge, vec![], SEEN),
            (IDLE, Call::Enable { on: 0 }, vec![], off),
            (off, Call::Enable { on: 1 }, vec![], IDLE),
            (off, run(&queue, 0, 1), vec![0, 0, 0, 0, 0, 0], off),
        ] {
            let (before, after) = (before | pending, after | pending);
            leaves(checker, before, call, (0, &told), after);
        }
        for (word, call, number) in [
            (ONE | pending, Call::Doorbell { wr: 2 }, 5),
            (SEEN | pending, Call::Acknowledge, 6),
        ] {
            leaves(checker, word, call, (number, &[0; 8]), word);
        }
    }
}

/// Cleared by a call that stores once, and refused with 12 if it isn't set, after
/// 1, 2 and 3. Nothing is told.
fn cleared(checker: &mut Checker) {
    let clear = Call::ClearPending;
    for word in [IDLE, ONE, DONE, RAISED, SEEN, 0x0006_0000_0030_0001] {
        leaves(checker, word | PENDING, clear, (0, &[0; 8]), word);
        leaves(checker, word, clear, (12, &[0; 8]), word);
    }
    let ill_formed = 1 << 56;
    for pending in [0, PENDING] {
        for (mut kept, number, row) in [
            (vec![IDLE | pending, 2, 0, 0], 1, 0),
            (vec![ill_formed | pending, 2, 0, 0], 1, 0),
            (vec![ill_formed | pending, 2, 0, 0, 0], 2, 0),
            (vec![IDLE | pending, 0, 0, 0, 0, 2, 0, 0, 0], 3, 1),
        ] {
            let before = kept.clone();
            let reply = checker.call(&mut kept, clear);
            let met = reply.number == number && reply.answer == [row, 0, 0, 0, 0, 0, 0, 0];
            let law = "1, 2 and 3 aren't tried before 12";
            checker.insist(met, law, &before, clear, (reply, &kept));
        }
    }
}
