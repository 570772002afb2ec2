//! The unit under test, through its C interface.

use crate::call::{Asked, Call};
use crate::interface::*;
use crate::lent::{Lent, Memory};

/// Makes the call; returns the number, and leaves eight words in `answer`.
pub fn perform(call: Call, lent: &mut Memory, answer: &mut Lent) -> u64 {
    let (words, rows) = (lent.inner().len(), lent.table().len());
    let memory = lent.inner_mut().as_mut_ptr();
    let table = lent.table_mut().as_mut_ptr();
    let (slots, length) = (lent.bytes_mut().as_mut_ptr(), lent.bytes().len());
    let answer = answer.inner_mut().as_mut_ptr();
    // SAFETY: the pointers come from live borrows of the lengths given beside
    // them, eight words for the answer; those of memory, second table, bytes and answer
    // are exclusive.
    unsafe {
        match call {
            Call::Run {
                queue,
                features,
                allowance,
            } => {
                let (first, bytes) = (queue.as_ptr(), queue.len());
                tahvenno_run(
                    memory, words, table, rows, first, bytes, features, allowance, answer,
                )
            }
            Call::Fill {
                row,
                words: [w0, w1, w2, w3],
                allowance,
            } => tahvenno_fill(memory, words, row, w0, w1, w2, w3, allowance, answer),
            Call::Doorbell { wr } => tahvenno_doorbell(memory, words, wr, answer),
            Call::Acknowledge => tahvenno_acknowledge(memory, words, answer),
            Call::Enable { on } => tahvenno_enable(memory, words, on, answer),
            Call::Translate(asked) => translate(memory, words, asked, answer),
            Call::State => tahvenno_state(memory, words, answer),
            Call::ClearPending => tahvenno_clear_pending(memory, words, answer),
            Call::TableFill {
                row,
                words: [w0, w1],
                allowance,
            } => tahvenno_table_fill(memory, words, table, rows, row, w0, w1, allowance, answer),
            Call::WriteBatch { commands, features } => {
                let (first, count) = (commands.as_ptr(), commands.len());
                tahvenno_write_batch(memory, words, slots, length, first, count, features, answer)
            }
            Call::CheckBatch {
                original,
                proposed,
                features,
            } => tahvenno_check_batch(
                memory,
                words,
                table,
                rows,
                original.as_ptr(),
                original.len(),
                proposed.as_ptr(),
                proposed.len(),
                features,
                answer,
            ),
            Call::EventWrite { record, allowance } => {
                tahvenno_event_write(memory, words, record.as_ptr(), allowance, answer)
            }
            Call::EventRead => tahvenno_event_read(memory, words, answer),
            Call::EventAcknowledge => tahvenno_event_acknowledge(memory, words, answer),
            Call::WriteCommand { fields, features } => {
                tahvenno_write_command(slots, length, fields.as_ptr(), features, answer)
            }
        }
    }
}

/// Takes the transaction apart for the C interface.
unsafe fn translate(memory: *const u64, words: usize, asked: Asked, answer: *mut u64) -> u64 {
    tahvenno_translate(
        memory,
        words,
        asked.stream,
        asked.substream,
        asked.address,
        asked.how,
        asked.memattr,
        asked.sh,
        asked.hints,
        answer,
    )
}
