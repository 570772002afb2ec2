//! The inputs, one file for each sort.

pub mod attributes;
pub mod cases;
pub mod check;
pub mod commands;
pub mod controls;
pub mod cuts;
pub mod doubles;
pub mod events;
pub mod formats;
pub mod hyp;
pub mod limits;
pub mod nights;
pub mod pending;
pub mod ranges;
pub mod reasons;
pub mod regions;
pub mod sequences;
pub mod single;
pub mod upper;
pub mod writer;

use crate::call::Call;
use crate::model::control::Control;

/// A queue of 2^log2size slots with `waiting` commands from slot 0 on, enabled
/// and without an error.
fn waiting(log2size: u64, waiting: u64) -> Control {
    let none = Control::fields(0);
    Control {
        wr: waiting,
        enabled: true,
        log2size,
        ..none
    }
}

/// So many commands waiting from `rd` on.
fn from(log2size: u64, rd: u64, waits: u64) -> Control {
    Control {
        rd,
        ..waiting(log2size, (rd + waits) % (2 << log2size))
    }
}

fn run(queue: &[u8], features: u64, allowance: u64) -> Call<'_> {
    Call::Run {
        queue,
        features,
        allowance,
    }
}

/// Commands as the guest's bytes.
fn bytes(commands: &[(u64, u64)]) -> Vec<u8> {
    commands
        .iter()
        .flat_map(|&(low, high)| [low.to_le_bytes(), high.to_le_bytes()].concat())
        .collect()
}
