//! Batches that fit, or don't, and those that are taken for others.

use super::made::Fault;
use crate::model::control::Control;

/// Which batches don't fit, and what becomes of them.
pub const ROOM: [Fault; 17] = [
    ("one command too many", |made| {
        if made.number == 22 && made.count() == made.free() + 1 {
            made.carry_out(made.count());
        }
    }),
    ("one command too few", |made| {
        if made.some() && made.count() == made.free() {
            made.refuse(22, 0);
        }
    }),
    ("as many commands as slots, free or not", |made| {
        if made.number == 22 && made.count() <= made.control().slots() {
            made.carry_out(made.count());
        }
    }),
    ("a full ring for a full queue", |made| {
        let control = made.control();
        if made.number == 22 && control.distance(control.wr) + made.count() < control.ring() {
            made.carry_out(made.count());
        }
    }),
    ("the free slots up to the end alone", |made| {
        let control = made.control();
        let left = control.slots() - control.wr % control.slots();
        if made.some() && made.count() > left {
            made.refuse(22, 0);
        }
    }),
    ("no more than the indexes up to the end", |made| {
        let control = made.control();
        if made.some() && control.wr + made.count() > control.ring() {
            made.refuse(22, 0);
        }
    }),
    ("the slots less WR for the free ones", |made| {
        let Control { wr, .. } = made.control();
        if made.some() && made.count() + wr > made.control().slots() {
            made.refuse(22, 0);
        }
    }),
    ("64 commands too many", |made| {
        if made.number == 0 && made.count() > 63 {
            made.refuse(22, 0);
        }
    }),
    ("256 commands too many", |made| {
        if made.number == 0 && made.count() > 255 {
            made.refuse(22, 0);
        }
    }),
    ("the largest batch too many", |made| {
        if made.number == 0 && made.count() == 4_096 {
            made.refuse(22, 0);
        }
    }),
    ("a queue's length of 16 bits", |made| {
        if made.number == 0 && made.queue.len() == 1 << 16 {
            made.refuse(4, 0);
        }
    }),
    ("a queue's length without what is above 16 bits", |made| {
        let right = 16 * made.control().slots() as usize;
        if made.number == 4 && made.queue.len() % (1 << 16) == right && made.commands.is_empty() {
            made.refuse(0, 0);
        }
    }),
    ("22 writes those that fit", |made| {
        if made.number == 22 {
            let wr = made.control().wr;
            (0..made.free()).for_each(|number| made.put(number, wr + number));
        }
    }),
    ("22 writes those that fit and rings", |made| {
        if made.number == 22 {
            made.carry_out(made.free());
            made.number = 22;
        }
    }),
    ("those that fit are enough", |made| {
        if made.number == 22 {
            made.carry_out(made.free());
        }
    }),
    ("22 while the queue is off", |made| {
        if made.some() && !made.control().enabled {
            made.refuse(22, 0);
        }
    }),
    ("22 while an error is active", |made| {
        if made.some() && made.control().active() {
            made.refuse(22, 0);
        }
    }),
];

/// The batch taken for another.
pub const WORDS: [(&str, fn(&[u64], u64) -> (Vec<u64>, u64)); 8] = [
    (
        "a last command that isn't whole not looked at",
        |words, some| (words[..words.len() / 16 * 16].to_vec(), some),
    ),
    (
        "a last command that isn't whole made whole",
        |words, some| {
            let mut words = words.to_vec();
            words.resize(words.len().div_ceil(16) * 16, 0);
            (words, some)
        },
    ),
    ("a last command of 15 words made whole", |words, some| {
        let mut words = words.to_vec();
        if words.len() % 16 == 15 {
            words.push(0);
        }
        (words, some)
    }),
    ("the words of a batch of 8 bits", |words, some| {
        (words[..words.len() % (1 << 8)].to_vec(), some)
    }),
    ("the words of a batch of 16 bits", |words, some| {
        (words[..words.len() % (1 << 16)].to_vec(), some)
    }),
    ("the commands of a batch of 16 bits", |words, some| {
        (words[..words.len() % (1 << 20)].to_vec(), some)
    }),
    (
        "word 15 of the first command not looked at",
        |words, some| {
            let mut words = words.to_vec();
            if words.len() >= 16 {
                words[15] = 0;
            }
            (words, some)
        },
    ),
    ("every feature in a batch", |words, _| {
        (words.to_vec(), 0x7F)
    }),
];
