//! Batches at other slots, in part, and beside them.

use super::made::Fault;
use crate::limits::LOG2SIZE;
use crate::model::control::Control;

pub fn all() -> impl Iterator<Item = Fault> {
    PLACES.into_iter().chain(BESIDE)
}

/// The commands elsewhere.
const PLACES: [Fault; 16] = [
    ("from RD on", |made| {
        let rd = made.control().rd;
        made.put_all(|number| rd + number)
    }),
    ("from slot 0 on", |made| made.put_all(|number| number)),
    ("from the slot behind WR on", |made| {
        let wr = made.control().wr;
        made.put_all(|number| wr + number + 1)
    }),
    ("from the slot before WR on", |made| {
        let Control { wr, log2size, .. } = made.control();
        made.put_all(|number| wr + (1 << log2size) - 1 + number)
    }),
    ("down from WR", |made| {
        let Control { wr, log2size, .. } = made.control();
        made.put_all(|number| wr + (2 << log2size) - number)
    }),
    ("the last one first", |made| {
        let last = made.control().wr + made.count();
        made.put_all(|number| last - 1 - number)
    }),
    ("all into one slot", |made| {
        let wr = made.control().wr;
        made.put_all(|_| wr)
    }),
    ("nothing round the end", |made| {
        let control = made.control();
        let first = control.wr % control.slots();
        for number in 0..made.count() {
            if made.number == 0 && first + number >= control.slots() {
                made.leave(control.wr + number);
            }
        }
    }),
    ("round the end to slot 1", |made| {
        let control = made.control();
        let first = control.wr % control.slots();
        if made.some() && control.slots() > 1 {
            let round = |number| match first + number < control.slots() {
                true => first + number,
                false => first + number + 1,
            };
            made.put_all(round);
        }
    }),
    ("the first command alone", |made| {
        if made.number == 0 {
            let wr = made.control().wr;
            (1..made.count()).for_each(|number| made.leave(wr + number));
        }
    }),
    ("all but the last command", |made| {
        if made.some() {
            made.leave(made.control().wr + made.count() - 1);
        }
    }),
    ("all but the first command", |made| {
        if made.some() {
            made.leave(made.control().wr);
        }
    }),
    ("the first command in every slot", |made| {
        if made.some() {
            let wr = made.control().wr;
            (0..made.count()).for_each(|number| made.put(0, wr + number));
        }
    }),
    ("no byte written", |made| {
        if made.number == 0 {
            made.queue.copy_from_slice(&made.old);
        }
    }),
    ("64 commands at most", |made| {
        if made.number == 0 {
            let wr = made.control().wr;
            (64..made.count()).for_each(|number| made.leave(wr + number));
        }
    }),
    ("the last slot of the largest queue left", |made| {
        let control = made.control();
        if made.number == 0 && control.log2size == LOG2SIZE {
            made.leave(control.slots() - 1);
        }
    }),
];

/// Bytes that aren't of the commands.
const BESIDE: [Fault; 6] = [
    ("the slot behind cleared", |made| {
        let (wr, count) = (made.control().wr, made.count());
        if made.number == 0 && count < made.control().slots() {
            made.clear(wr + count);
        }
    }),
    ("the slot before cleared", |made| {
        let control = made.control();
        if made.some() && made.count() < control.slots() {
            made.clear(control.wr + control.slots() - 1);
        }
    }),
    ("every free slot cleared", |made| {
        if made.number == 0 {
            let wr = made.control().wr;
            (made.count()..made.free()).for_each(|number| made.clear(wr + number));
        }
    }),
    ("every slot cleared", |made| {
        if made.some() {
            let (wr, count) = (made.control().wr, made.count());
            let slots = made.control().slots();
            (count..slots).for_each(|number| made.clear(wr + number));
        }
    }),
    ("a byte behind the last command", |made| {
        let control = made.control();
        let behind = (control.wr + made.count()) % control.slots();
        if made.some() && made.count() < control.slots() {
            made.queue[16 * behind as usize] = 0;
        }
    }),
    ("an empty batch clears a slot", |made| {
        if made.number == 0 && made.count() == 0 {
            made.clear(made.control().wr);
        }
    }),
];
