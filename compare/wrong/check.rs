//! Wrong units that check batches otherwise (document 02, T-12).

mod asked;
mod carried;
mod controls;
mod counted;
mod fit;
mod lengths;
mod made;
mod read;
mod refusals;
mod rows;
mod searched;
mod stores;
mod told;

use crate::call::Call;
use crate::lent::{Lent, Memory};
use crate::model::command::Effect;
use crate::unit;
use asked::Asked;
use made::Made;

#[derive(Clone, Copy)]
pub enum Fault {
    /// The unit is asked about other batches, rows or features.
    Seen(fn(&mut Asked)),
    /// What is made of a check that the unit has answered.
    Made(fn(&mut Made)),
    /// Legal commands of a code don't qualify.
    Unfit(u8),
    /// They are after nothing, in these batches.
    Idle(u8, &'static [usize]),
    /// Commands that don't qualify for such a reason do, in these batches, and are after
    /// nothing.
    Qualifies(fit::Reason, &'static [usize]),
    /// A legal command doesn't qualify if it is so, by what it is after.
    Disqualified(fn(&Asked, usize, Effect) -> bool),
    /// The first number is given where the second is due before it.
    Early(u64, u64),
}

/// A fault with its name.
type Named<T> = (&'static str, T);

/// Every wrong unit with its name.
pub fn all() -> Vec<(String, Fault)> {
    let mut all = fit::all();
    let seen = carried::SEEN.iter().chain(refusals::SEEN);
    let seen = seen
        .chain(controls::SEEN)
        .chain(read::SEEN)
        .chain(lengths::SEEN);
    all.extend(seen.map(|&(name, seen)| (name.into(), Fault::Seen(seen))));
    let made = searched::MADE.iter().chain(rows::MADE).chain(told::MADE);
    let made = made.chain(counted::MADE).chain(carried::MADE);
    let made = made.chain(refusals::MADE).chain(controls::MADE);
    let made = made.chain(stores::MADE).chain(lengths::MADE);
    all.extend(made.map(|&(name, made)| (name.into(), Fault::Made(made))));
    for (early, due) in refusals::EARLY {
        all.push((format!("{early} before {due}"), Fault::Early(early, due)));
    }
    let named = |(name, fault): (String, Fault)| (format!("check: {name}"), fault);
    all.into_iter().map(named).collect()
}

impl Fault {
    /// Makes the call as `unit::perform` does, with the fault.
    pub fn perform(self, call: Call, memory: &mut Memory, answer: &mut Lent) -> u64 {
        let Some(mut asked) = Asked::of(call, memory) else {
            return unit::perform(call, memory, answer);
        };
        let mut made = Made::of(asked.clone());
        match self {
            Fault::Made(fault) => fault(&mut made),
            Fault::Early(early, due) => refusals::early(&mut made, early, due),
            _ => {
                self.see(&mut asked);
                (made.number, made.answer) = asked.on_unit();
            }
        }
        memory.inner_mut().copy_from_slice(&made.kept);
        memory.table_mut().copy_from_slice(&made.table);
        answer.inner_mut().copy_from_slice(&made.answer);
        made.number
    }

    fn see(self, asked: &mut Asked) {
        match self {
            Fault::Seen(seen) => seen(asked),
            Fault::Unfit(code) => {
                asked.change(&[0, 1], |_, command| match command.0 as u8 == code {
                    true => asked::BAD,
                    false => command,
                })
            }
            Fault::Idle(code, batches) => {
                let idle = asked.idle();
                let legal = asked.legal();
                asked.change(batches, |_, command| {
                    match command.0 as u8 == code && legal(command).is_ok() {
                        true => idle,
                        false => command,
                    }
                })
            }
            Fault::Qualifies(reason, batches) => {
                let idle = asked.idle();
                let legal = asked.legal();
                asked.change(batches, |_, command| {
                    match reason(legal(command), command) {
                        true => idle,
                        false => command,
                    }
                })
            }
            Fault::Disqualified(so) => {
                let (legal, copy) = (asked.legal(), asked.clone());
                for batch in [0, 1] {
                    asked.change(&[batch], |_, command| match legal(command) {
                        Ok(effect) if so(&copy, batch, effect) => asked::BAD,
                        _ => command,
                    })
                }
            }
            Fault::Made(_) | Fault::Early(..) => (),
        }
    }
}
