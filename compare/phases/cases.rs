//! The paper's own bench cases, with the answers that it gives; they hold the
//! model to the paper as well as the unit.

use super::{bytes, waiting};
use crate::call::{Asked, Call};
use crate::checker::Checker;
use crate::generate::images::with_rows;
use crate::generate::rows::{ste, Reach, Words, STAGE1, STAGE2};
use crate::model::control::Control;

const ALL: u64 = 0b1111;
const EMPTY_ROW: Words = [0; 4];

pub fn cases(checker: &mut Checker) {
    checker.phase("the paper's bench cases");
    commands(checker);
    queues(checker);
    pairs(checker);
    let mut kept = vec![0x0006_0000_0030_0001, 0, 0, 0, 0];
    expect(checker, &mut kept, Call::State, 0, &[1, 3, 0, 0, 1, 0]);
}

/// One call whose number and first answer words the paper gives.
pub fn expect(checker: &mut Checker, kept: &mut [u64], call: Call, number: u64, words: &[u64]) {
    let before = kept.to_vec();
    let reply = checker.call(kept, call);
    let met = reply.number == number && reply.answer.starts_with(words);
    let law = "a case of the paper isn't met";
    checker.insist(met, law, &before, call, (reply, kept));
}

/// A run over one command: end, consumed, stores, removed, counted syncs; then
/// reason and slot, where they are given.
pub fn one(
    checker: &mut Checker,
    rows: &[Words],
    command: (u64, u64),
    features: u64,
    words: &[u64],
) {
    let mut kept = with_rows(waiting(0, 1), rows);
    let queue = bytes(&[command]);
    let call = Call::Run {
        queue: &queue,
        features,
        allowance: u64::MAX,
    };
    expect(checker, &mut kept, call, 0, words);
}

fn commands(checker: &mut Checker) {
    let reach = Reach {
        kind: STAGE1,
        vmid: 5,
        asid: 0x1234,
        global: false,
        span: 12,
        page: 0,
    };
    let space = [reach.page(0, 0)];
    let streams = [0xFF, 0x100, 0x107, 0x108, 0xFFFF_FFFF].map(|stream| ste(stream, 0, 0, 0));
    for (rows, low, high, features, words) in [
        (&space[..], 0x1234_0005_0000_0011, 0, ALL, [2, 1, 2, 1, 0]),
        (
            &space,
            0x1234_0005_0000_0011,
            0,
            ALL & !0b100,
            [2, 1, 1, 0, 0],
        ),
        (&[EMPTY_ROW], 0x0000_0100_0000_0003, 1, ALL, [2, 1, 1, 0, 0]),
        (&[EMPTY_ROW], 0x0000_0100_0000_0403, 1, ALL, [3, 0, 1, 0, 0]),
        (&streams, 0x0000_0107_0000_0004, 2, ALL, [2, 1, 3, 2, 0]),
        (&streams, 4, 0x1F, ALL, [2, 1, 6, 5, 0]),
        (&[EMPTY_ROW], 0x1046, 0, ALL, [2, 1, 1, 0, 1]),
        (&[EMPTY_ROW], 0x2046, 0, ALL, [2, 1, 1, 0, 0]),
        (&[EMPTY_ROW], 0x3046, 0, ALL, [3, 0, 1, 0, 0]),
    ] {
        one(checker, rows, (low, high), features, &words);
    }
}

fn queues(checker: &mut Checker) {
    // Only slot 255 holds a legal command.
    let mut commands = [(0, 0); 256];
    commands[255] = (0x1046, 0);
    let queue = bytes(&commands);
    let wrapping = Control {
        rd: 0x1FF,
        ..waiting(8, 0)
    };
    let mut kept = with_rows(wrapping, &[EMPTY_ROW]);
    let call = Call::Run {
        queue: &queue,
        features: ALL,
        allowance: u64::MAX,
    };
    expect(checker, &mut kept, call, 0, &[2, 1, 1, 0, 1]);
    expect(checker, &mut kept, Call::State, 0, &[0, 0, 0, 0, 1, 0]);

    let none = Call::Run {
        queue: &queue[..16],
        features: ALL,
        allowance: 0,
    };
    for (control, call, number, words) in [
        (waiting(8, 0x100), Call::State, 0, [0, 0x100, 0, 0, 1]),
        (waiting(8, 0x101), Call::State, 2, [0; 5]),
        (waiting(0, 0), none, 0, [2, 0, 0, 0, 0]),
        (waiting(0, 1), none, 0, [4, 0, 0, 0, 0]),
    ] {
        expect(
            checker,
            &mut with_rows(control, &[EMPTY_ROW]),
            call,
            number,
            &words,
        );
    }
}

/// Pairs of numbered attributes, as incoming type and stage 2 row.
fn pairs(checker: &mut Checker) {
    let reach = Reach {
        kind: STAGE2,
        vmid: 0,
        asid: 0,
        global: false,
        span: 12,
        page: 0,
    };
    // SHCFG 1: the shareability stays as it comes in.
    let kept_as_is = 1 << 5;
    for (memattr, sh, second, result, share) in [
        (7, 0, 13, 5, 2),
        (15, 3, 14, 14, 3),
        (2, 2, 1 | 2 << 4, 1, 2),
    ] {
        let rows = [ste(9, 0, 6, kept_as_is), reach.page(0x5000, second)];
        let (stream, substream, address, how, hints) = (9, 0, 0x123, 0, 0);
        let asked = Asked {
            stream,
            substream,
            address,
            how,
            memattr,
            sh,
            hints,
        };
        let words = [0, 0x5123, result, share, 0, 0, 0, 0];
        let mut kept = with_rows(waiting(0, 0), &rows);
        expect(checker, &mut kept, Call::Translate(asked), 0, &words);
    }
}
