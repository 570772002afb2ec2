//! The model behind the C interface, watched by the tally.

use crate::answers::{
    answer, checked, filled, ran, reply, standing, transaction, translated, written,
};
use crate::call::{Asked, Call, Reply, EVENT_CALLS, FIRST_EVENT};
use crate::model::check::check_batch;
use crate::model::command::Features;
use crate::model::control::Control;
use crate::model::control_calls::{acknowledge, clear_pending, doorbell, enable};
use crate::model::events;
use crate::model::fill::fill;
use crate::model::refusal::Refusal;
use crate::model::run::{run, Report};
use crate::model::state::state;
use crate::model::table_fill::table_fill;
use crate::model::transaction::{stream_row, translate, Outcome};
use crate::model::writer::{write_batch, write_command};
use crate::tally::Tally;

/// Makes the call, and tells the tally what came of it. `bytes` are the slot or the
/// queue that it writes.
pub fn perform(
    call: Call,
    (kept, table, bytes): (&mut [u64], &mut [u64], &mut [u8]),
    tally: &mut Tally,
) -> Reply {
    let before = kept.first().copied().unwrap_or(0);
    let result = match call {
        Call::Run {
            queue,
            features,
            allowance,
        } => {
            let call = (queue, features, allowance);
            ended((kept, table), call, tally).map(ran)
        }
        Call::Fill {
            row,
            words,
            allowance,
        } => fill(kept, row, words, allowance).map(filled),
        Call::Doorbell { wr } => doorbell(kept, wr).map(|()| answer(&[])),
        Call::Acknowledge => acknowledge(kept).map(|()| answer(&[])),
        Call::Enable { on } => enable(kept, on != 0).map(|()| answer(&[])),
        Call::Translate(asked) => outcome(kept, asked, tally).map(translated),
        Call::State => state(kept).map(standing),
        Call::ClearPending => clear_pending(kept).map(|()| answer(&[])),
        Call::TableFill {
            row,
            words,
            allowance,
        } => table_fill(kept, table, row, words, allowance).map(filled),
        Call::WriteBatch { commands, features } => {
            let features = Features::from_bits(features);
            write_batch(kept, bytes, commands, features).map(|()| answer(&[]))
        }
        Call::CheckBatch {
            original,
            proposed,
            features,
        } => {
            let features = Features::from_bits(features);
            check_batch(kept, table, original, proposed, features).map(checked)
        }
        Call::EventWrite { record, allowance } => recorded(kept, record, allowance),
        Call::EventRead => events::read(kept).map(|record| answer(&record)),
        Call::EventAcknowledge => events::acknowledge(kept).map(|()| answer(&[])),
        Call::WriteCommand { fields, features } => {
            let features = Features::from_bits(features);
            write_command(bytes, fields, features).map(|()| answer(&[]))
        }
    };
    let reply = reply(result);
    tally.count(&call, &reply);
    match call.index() {
        _ if reply.number != 0 => (),
        0..FIRST_EVENT => tally.pending.count(&call, &reply, (before, kept[0])),
        index if EVENT_CALLS.contains(&index) => tally.events.count(&call, &reply, before),
        _ => (),
    }
    reply
}

fn recorded(kept: &mut [u64], record: &[u8; 32], allowance: u64) -> Result<[u64; 8], Refusal> {
    events::write(kept, record, allowance).map(written)
}

fn ended(
    (kept, table): (&mut [u64], &mut [u64]),
    (queue, features, allowance): (&[u8], u64, u64),
    tally: &mut Tally,
) -> Result<Report, Refusal> {
    let watch = |code, fate| tally.commands.count(code, fate);
    let features = Features::from_bits(features);
    let report = run(kept, table, queue, features, allowance, watch)?;
    if report.raised.is_some() {
        tally.commands.count_raised(Control::fields(kept[0]));
    }
    Ok(report)
}

fn outcome(kept: &[u64], asked: Asked, tally: &mut Tally) -> Result<Outcome, Refusal> {
    let outcome = translate(kept, &transaction(asked))?;
    if let Some(row) = stream_row(kept, asked.stream.into()) {
        tally.count_config(row.config(), matches!(outcome, Outcome::Passed(_)));
    }
    Ok(outcome)
}
