//! Whether words are accepted, by calls on copies of them. The unit itself is asked, also
//! where a wrong one is compared: this is about the words.

use super::Words;
use crate::call::Call;
use crate::generate::random::Random;
use crate::lent::{Lent, Memory};
use crate::unit;

/// The refusals for words, whatever is asked.
const ILL_FORMED: [u64; 7] = [1, 2, 3, 13, 14, 15, 16];

/// The state, a run of no queue, a fill of no row of the second table, and a read of the
/// recorder.
pub fn accepted(words: &Words) -> bool {
    let none = Call::Run {
        queue: &[],
        features: 0,
        allowance: 0,
    };
    let nowhere = Call::TableFill {
        row: u64::MAX,
        words: [0; 2],
        allowance: 0,
    };
    let kept = [Call::State, none, nowhere];
    kept.iter()
        .all(|&call| taken(&words.kept, &words.table, call))
        && taken(&words.events, &[], Call::EventRead)
}

/// Whether a call on a copy gets past the words; it may be refused for another reason.
fn taken(words: &[u64], table: &[u64], call: Call) -> bool {
    let garbage = &mut Random::new(0);
    let mut lent = Memory::new(words, table, garbage);
    let mut answer = Lent::new(&[0; 8], garbage);
    let number = unit::perform(call, &mut lent, &mut answer);
    !ILL_FORMED.contains(&number)
}
