//! The event recorder (document 02, T-01).

pub mod cases;
mod cuts;
mod indexes;
mod lengths;
mod records;
mod sequences;
mod states;

use crate::call::Call;
use crate::checker::Checker;

pub fn events(checker: &mut Checker) {
    states::sweeps(checker);
    indexes::sweeps(checker);
    lengths::sweeps(checker);
    records::sweeps(checker);
    cuts::sweeps(checker);
    sequences::sequences(checker);
}

fn write(record: &[u8; 32], allowance: u64) -> Call<'_> {
    Call::EventWrite { record, allowance }
}

/// The three calls, each on a copy.
fn every_call(checker: &mut Checker, events: &[u64], record: &[u8; 32]) {
    for call in [
        write(record, u64::MAX),
        write(record, 0),
        Call::EventRead,
        Call::EventAcknowledge,
    ] {
        checker.call(&mut events.to_vec(), call);
    }
}
