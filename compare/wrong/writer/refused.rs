//! Batches that are refused, and do something all the same.

use super::made::Fault;

/// What a refusal does all the same.
pub const STORES: [Fault; 10] = [
    ("those before a bad command written", |made| {
        if matches!(made.number, 20 | 21) {
            let (wr, count) = (made.control().wr, made.answer[0].min(made.free()));
            (0..count).for_each(|number| made.put(number, wr + number));
        }
    }),
    ("those before a bad command written and rung for", |made| {
        if matches!(made.number, 20 | 21) {
            let (number, answer) = (made.number, made.answer);
            made.carry_out(answer[0].min(made.free()));
            (made.number, made.answer) = (number, answer);
        }
    }),
    ("the doorbell rung before 21", |made| {
        if made.number == 21 && made.free() > 0 {
            made.ring_by(1);
        }
    }),
    ("the doorbell rung before 22", |made| {
        if made.number == 22 {
            made.ring_by(made.free());
        }
    }),
    ("bad commands left out", |made| {
        if matches!(made.number, 20 | 21) {
            let good: Vec<u64> = (0..made.count())
                .filter(|&number| made.named(number).on_unit(0).0 == 0)
                .collect();
            if good.len() as u64 <= made.free() {
                let wr = made.control().wr;
                for (index, number) in (wr..).zip(&good) {
                    made.put(*number, index);
                }
                made.ring_by(good.len() as u64);
                made.number = 0;
                made.answer = [0; 8];
            }
        }
    }),
    ("the slot of a bad command cleared", |made| {
        if matches!(made.number, 20 | 21) {
            let control = made.control();
            let slot = (control.wr + made.answer[0]) % control.slots();
            made.queue[16 * slot as usize..][..16].fill(0);
        }
    }),
    ("the slot at WR cleared before 22", |made| {
        if made.number == 22 {
            let slot = made.control().wr % made.control().slots();
            made.queue[16 * slot as usize..][..16].fill(0);
        }
    }),
    ("a queue too long written to", |made| {
        let right = 16 * made.control().slots() as usize;
        let good = made.own().iter().all(|&number| number == 0);
        if made.number == 4 && made.old.len() > right && good && made.count() <= made.free() {
            made.carry_out(made.count());
        }
    }),
    ("a queue too long, if by whole slots, written to", |made| {
        let right = 16 * made.control().slots() as usize;
        let whole = made.old.len() > right && made.old.len() % 16 == 0;
        let good = made.own().iter().all(|&number| number == 0);
        if made.number == 4 && whole && good && made.count() <= made.free() {
            made.carry_out(made.count());
        }
    }),
    ("a queue's length not looked at while it is off", |made| {
        if made.number == 4 && !made.control().enabled && made.commands.is_empty() {
            made.refuse(0, 0);
        }
    }),
];
