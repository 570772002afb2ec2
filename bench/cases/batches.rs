//! Checks of a batch against a proposal for it: the commands of a full queue beside the
//! same ones in another order, which get a yes.

use super::{shuffle, Case, Work};

/// The run's commands and rows, checked instead of run. Two such runs, one for each batch,
/// are what a caller would make on copies without the check.
pub fn check(letter: &'static str, what: &'static str, case: Case) -> Case {
    let Work::Runs { queues, features } = case.work else {
        panic!("a check is made of a run");
    };
    let original = queues[0].clone();
    let mut commands: Vec<&[u8]> = original.chunks(16).collect();
    shuffle(10, &mut commands);
    let proposed = commands.concat();
    Case {
        letter,
        what,
        work: Work::Check {
            batches: [original, proposed],
            features,
        },
        end: 0,
        removes: None,
        ..case
    }
}
