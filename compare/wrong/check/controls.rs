//! The control word has a part in it, or none at all.

use super::asked::Asked;
use super::made::Made;
use super::Named;
use crate::call::DIFFERS;
use crate::model::control::Control;

fn control(asked: &Asked) -> Control {
    Control::fields(asked.kept.first().copied().unwrap_or(0))
}

/// A check that is carried out is refused for its control word.
fn refused(made: &mut Made, so: impl Fn(Control) -> bool) {
    if made.number == 0 && so(control(&made.asked)) {
        made.refuse(2, 0);
    }
}

/// No row goes where the control word is so.
fn nothing(made: &mut Made, so: impl Fn(Control) -> bool) {
    if made.said(DIFFERS) && so(control(&made.asked)) {
        made.say([0; 3]);
    }
}

/// An ill-formed control word that is taken for this one.
fn taken(asked: &mut Asked, other: impl Fn(u64) -> u64) {
    if let Some(word) = asked.kept.first_mut() {
        *word = other(*word);
    }
}

pub const SEEN: &[Named<fn(&mut Asked)>] = &[
    ("the control word is not looked at", |asked| {
        taken(asked, |_| 0)
    }),
    ("RD and WR are not looked at", |asked| {
        taken(asked, |word| word >> 40 << 40)
    }),
    ("ERR is not looked at", |asked| {
        taken(asked, |word| word & !(0x7F << 40) | 1 << 40)
    }),
    ("LOG2SIZE is not looked at", |asked| {
        taken(asked, |word| match word >> 50 & 31 > 12 {
            true => word & !(31 << 50) & !0xFF_FFFF_FFFF,
            false => word,
        })
    }),
    ("bits above the pending one are not looked at", |asked| {
        taken(asked, |word| word << 8 >> 8)
    }),
];

pub const MADE: &[Named<fn(&mut Made)>] = &[
    ("2 where the queue is off", |made| {
        refused(made, |control| !control.enabled)
    }),
    ("2 where an error is active", |made| {
        refused(made, |control| control.active())
    }),
    ("2 where an interrupt is pending", |made| {
        refused(made, |control| control.pending)
    }),
    ("2 where ERR is 1", |made| {
        refused(made, |control| control.err == 1)
    }),
    ("2 where commands wait", |made| {
        refused(made, |control| control.rd != control.wr)
    }),
    ("2 where the queue is full", |made| {
        refused(made, |control| {
            control.distance(control.wr) == control.slots()
        })
    }),
    ("2 for the largest queue", |made| {
        refused(made, |control| control.log2size == 12)
    }),
    ("no row goes where the queue is off", |made| {
        nothing(made, |control| !control.enabled)
    }),
    ("no row goes where an error is active", |made| {
        nothing(made, |control| control.active())
    }),
    ("no row goes where no command waits", |made| {
        nothing(made, |control| control.rd == control.wr)
    }),
    ("no row goes where an interrupt is pending", |made| {
        nothing(made, |control| control.pending)
    }),
];
