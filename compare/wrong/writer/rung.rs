//! Doorbells that are rung otherwise, other bits of the control word, and what a batch
//! tells.

use super::made::Fault;
use super::Named;
use crate::model::control::Control;

pub fn all() -> impl Iterator<Item = Fault> {
    RUNG.into_iter().chain(TELLS)
}

/// The doorbell, and the rest of the control word.
const RUNG: [Fault; 26] = [
    ("WR not moved", |made| {
        if made.some() {
            made.ring_by(0);
        }
    }),
    ("WR moved by one", |made| {
        if made.some() {
            made.ring_by(1);
        }
    }),
    ("WR moved by one less", |made| {
        if made.some() {
            made.ring_by(made.count() - 1);
        }
    }),
    ("WR moved by one more", |made| {
        if made.some() {
            made.ring_by(made.count() + 1);
        }
    }),
    ("WR moved by words", |made| {
        if made.some() {
            made.ring_by(16 * made.count());
        }
    }),
    ("WR moved without its wrap", |made| {
        if made.some() {
            let wr = made.control().wr + made.count();
            made.ring(|control| Control { wr, ..control });
        }
    }),
    ("WR taken for a slot", |made| {
        if made.some() {
            made.ring(|control| Control {
                wr: control.wr % control.slots(),
                ..control
            });
        }
    }),
    ("WR at the end of the ring stays there", |made| {
        if made.some() {
            let control = made.control();
            let wr = (control.wr + made.count()).min(control.ring() - 1);
            made.ring(|control| Control { wr, ..control });
        }
    }),
    ("WR set to the commands", |made| {
        if made.some() {
            let wr = made.count() % made.control().ring();
            made.ring(|control| Control { wr, ..control });
        }
    }),
    ("WR moved from RD", |made| {
        if made.some() {
            let control = made.control();
            let wr = (control.rd + made.count()) % control.ring();
            made.ring(|control| Control { wr, ..control });
        }
    }),
    ("WR of 12 bits", |made| {
        if made.some() {
            made.ring(|control| Control {
                wr: control.wr & 0xFFF,
                ..control
            });
        }
    }),
    ("RD moved, too", |made| {
        if made.some() {
            let count = made.count();
            made.ring(|control| Control {
                rd: (control.rd + count) % control.ring(),
                ..control
            });
        }
    }),
    ("an empty batch moves WR", |made| {
        if made.number == 0 && made.count() == 0 && made.free() > 0 {
            made.ring_by(1);
        }
    }),
    ("an empty batch is told to have no room", |made| {
        if made.number == 0 && made.count() == 0 && made.free() == 0 {
            made.refuse(22, 0);
        }
    }),
    ("an empty batch refused", |made| {
        if made.number == 0 && made.commands.is_empty() {
            made.refuse(21, 0);
        }
    }),
    ("a batch enables the queue", |made| {
        if made.some() {
            made.ring(|control| Control {
                enabled: true,
                ..control
            });
        }
    }),
    ("a batch disables the queue", |made| {
        if made.number == 0 {
            made.ring(|control| Control {
                enabled: false,
                ..control
            });
        }
    }),
    ("a batch acknowledges", |made| {
        if made.some() {
            made.ring(|control| Control {
                gerrorn: control.gerror,
                ..control
            });
        }
    }),
    ("a batch clears ERR", |made| {
        if made.number == 0 && !made.control().active() {
            made.ring(|control| Control { err: 0, ..control });
        }
    }),
    ("a batch clears the pending bit", |made| {
        if made.number == 0 {
            made.ring(|control| Control {
                pending: false,
                ..control
            });
        }
    }),
    ("a batch sets the pending bit", |made| {
        if made.some() {
            made.ring(|control| Control {
                pending: true,
                ..control
            });
        }
    }),
    ("a batch with a CMD_SYNC of CS 1 sets it", |made| {
        let sync = |number| {
            let Named { fields, .. } = made.named(number);
            (fields[0], fields[8]) == (0x46, 1)
        };
        if made.number == 0 && (0..made.count()).any(sync) {
            made.ring(|control| Control {
                pending: true,
                ..control
            });
        }
    }),
    ("a batch removes a row", |made| {
        if made.some() && made.kept.len() > 1 {
            made.kept[1] = 0;
        }
    }),
    ("nothing written while the queue is off", |made| {
        if made.number == 0 && !made.control().enabled {
            made.refuse(0, 0);
        }
    }),
    ("nothing written while an error is active", |made| {
        if made.number == 0 && made.control().active() {
            made.refuse(0, 0);
        }
    }),
    ("the doorbell not rung while an error is active", |made| {
        if made.number == 0 && made.control().active() {
            made.kept.copy_from_slice(&made.before);
        }
    }),
];

/// What a batch that is carried out tells.
const TELLS: [Fault; 5] = [
    ("a batch tells its commands", |made| {
        if made.some() {
            made.answer[0] = made.count();
        }
    }),
    ("a batch tells its stores", |made| {
        if made.number == 0 {
            made.answer[2] = 1;
        }
    }),
    ("a batch tells WR", |made| {
        if made.number == 0 {
            made.answer[0] = Control::fields(made.kept[0]).wr;
        }
    }),
    ("a batch tells the free slots", |made| {
        if made.number == 0 {
            made.answer[1] = made.free() - made.count();
        }
    }),
    ("a batch tells something behind", |made| {
        if made.number == 0 {
            made.answer[7] = 1;
        }
    }),
];
