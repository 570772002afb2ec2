//! The C interface: the only unsafe code of this crate. Each function hands slices on, and gives back the answer or
//! the refusal.
//!
//! What `include/tahvenno.h` asks of a caller, and why it holds for every call below (the comments at the calls add
//! what is special there):
//!
//! - No pointer is null, and each is aligned: all come from references. An empty slice gives a pointer to nothing,
//!   which is still neither null nor unaligned, and the length 0 beside it.
//! - Each length is that of the slice whose pointer stands before it; arrays have the length that the header gives.
//! - What is lent does not overlap, and nobody else writes to it until the call returns: what is written to comes from
//!   `&mut`, what is only read from `&`, and the answer is an array of this module's own.
//! - The unit keeps no pointer.

use crate::layout::{ANSWER_WORDS, COMMAND_WORDS, RECORD_BYTES, REGION_WORDS, ROW_WORDS};
use crate::refusal::Refusal;

// u64 is aligned to 8 bytes and usize is size_t, as on the machines that there are archives for
const _: () = assert!(align_of::<u64>() == 8 && size_of::<usize>() == 8);

#[rustfmt::skip]
#[link(name = "tahvenno", kind = "static")]
unsafe extern "C" {
    fn tahvenno_run(kept: *mut u64, words: usize, table: *mut u64, table_words: usize, queue: *const u8, bytes: usize,
        features: u64, allowance: u64, answer: *mut u64) -> u64;
    fn tahvenno_fill(kept: *mut u64, words: usize, row: u64, w0: u64, w1: u64, w2: u64, w3: u64, allowance: u64,
        answer: *mut u64) -> u64;
    fn tahvenno_table_fill(kept: *const u64, words: usize, table: *mut u64, table_words: usize, row: u64, w0: u64,
        w1: u64, allowance: u64, answer: *mut u64) -> u64;
    fn tahvenno_doorbell(kept: *mut u64, words: usize, wr: u64, answer: *mut u64) -> u64;
    fn tahvenno_acknowledge(kept: *mut u64, words: usize, answer: *mut u64) -> u64;
    fn tahvenno_enable(kept: *mut u64, words: usize, on: u64, answer: *mut u64) -> u64;
    fn tahvenno_clear_pending(kept: *mut u64, words: usize, answer: *mut u64) -> u64;
    fn tahvenno_translate(kept: *const u64, words: usize, stream: u32, substream: u32, address: u64, how: u64,
        memattr: u64, sh: u64, hints: u64, answer: *mut u64) -> u64;
    fn tahvenno_check_batch(kept: *const u64, words: usize, table: *const u64, table_words: usize, original: *const u8,
        original_bytes: usize, proposed: *const u8, proposed_bytes: usize, features: u64, answer: *mut u64) -> u64;
    fn tahvenno_state(kept: *const u64, words: usize, answer: *mut u64) -> u64;
    fn tahvenno_write_command(slot: *mut u8, bytes: usize, fields: *const u64, features: u64, answer: *mut u64) -> u64;
    fn tahvenno_write_batch(kept: *mut u64, words: usize, queue: *mut u8, bytes: usize, commands: *const u64,
        command_words: usize, features: u64, answer: *mut u64) -> u64;
    fn tahvenno_event_write(events: *mut u64, words: usize, record: *const u8, allowance: u64, answer: *mut u64) -> u64;
    fn tahvenno_event_read(events: *mut u64, words: usize, answer: *mut u64) -> u64;
    fn tahvenno_event_acknowledge(events: *mut u64, words: usize, answer: *mut u64) -> u64;
}

/// What a call gives: the eight words of its answer, or why it was refused.
pub(crate) type Told = Result<Answer, Refusal>;
type Answer = [u64; ANSWER_WORDS];

/// Makes a call with room for its answer.
fn told(call: impl FnOnce(&mut Answer) -> u64) -> Told {
    let mut answer = [0; ANSWER_WORDS];
    match call(&mut answer) {
        0 => Ok(answer),
        number => Err(Refusal::of(number, answer).unwrap_or_else(|| unknown(number))),
    }
}

/// What a number of an answer stands for.
pub(crate) fn known<T: TryFrom<u64>>(number: u64) -> T {
    T::try_from(number).unwrap_or_else(|_| unknown(number))
}

/// The archive says something that the header of this crate's version has no word for.
#[cold]
pub(crate) fn unknown<T>(number: u64) -> T {
    panic!("libtahvenno.a is of another version than this crate: it says {number}")
}

pub(crate) fn run(kept: &mut [u64], table: &mut [u64], queue: &[u8], features: u64, allowance: u64) -> Told {
    let (words, table_words, bytes) = (kept.len(), table.len(), queue.len());
    let (kept, table, queue) = (kept.as_mut_ptr(), table.as_mut_ptr(), queue.as_ptr());
    // SAFETY: kept and table are two exclusive borrows; the queue is only read, and nobody writes to it under `&`
    told(|answer| unsafe {
        tahvenno_run(kept, words, table, table_words, queue, bytes, features, allowance, answer.as_mut_ptr())
    })
}

pub(crate) fn fill(kept: &mut [u64], row: u64, &[w0, w1, w2, w3]: &[u64; ROW_WORDS], allowance: u64) -> Told {
    let (words, kept) = (kept.len(), kept.as_mut_ptr());
    // SAFETY: kept is an exclusive borrow of that length, and the row's words are passed as numbers
    told(|answer| unsafe { tahvenno_fill(kept, words, row, w0, w1, w2, w3, allowance, answer.as_mut_ptr()) })
}

pub(crate) fn table_fill(
    kept: &[u64],
    table: &mut [u64],
    row: u64,
    &[w0, w1]: &[u64; REGION_WORDS],
    allowance: u64,
) -> Told {
    let (words, table_words) = (kept.len(), table.len());
    let (kept, table) = (kept.as_ptr(), table.as_mut_ptr());
    // SAFETY: the table is an exclusive borrow, so it is apart from kept, which is only read
    told(|answer| unsafe {
        tahvenno_table_fill(kept, words, table, table_words, row, w0, w1, allowance, answer.as_mut_ptr())
    })
}

pub(crate) fn doorbell(kept: &mut [u64], wr: u64) -> Told {
    let (words, kept) = (kept.len(), kept.as_mut_ptr());
    // SAFETY: kept is an exclusive borrow of that length
    told(|answer| unsafe { tahvenno_doorbell(kept, words, wr, answer.as_mut_ptr()) })
}

pub(crate) fn acknowledge(kept: &mut [u64]) -> Told {
    let (words, kept) = (kept.len(), kept.as_mut_ptr());
    // SAFETY: kept is an exclusive borrow of that length
    told(|answer| unsafe { tahvenno_acknowledge(kept, words, answer.as_mut_ptr()) })
}

pub(crate) fn enable(kept: &mut [u64], on: u64) -> Told {
    let (words, kept) = (kept.len(), kept.as_mut_ptr());
    // SAFETY: kept is an exclusive borrow of that length
    told(|answer| unsafe { tahvenno_enable(kept, words, on, answer.as_mut_ptr()) })
}

pub(crate) fn clear_pending(kept: &mut [u64]) -> Told {
    let (words, kept) = (kept.len(), kept.as_mut_ptr());
    // SAFETY: kept is an exclusive borrow of that length
    told(|answer| unsafe { tahvenno_clear_pending(kept, words, answer.as_mut_ptr()) })
}

/// MemAttr, SH and hints as numbers, and `how` by its bits.
pub(crate) fn translate(
    kept: &[u64],
    [stream, substream]: [u32; 2],
    address: u64,
    how: u64,
    attributes: [u64; 3],
) -> Told {
    let [memattr, sh, hints] = attributes;
    let (words, kept) = (kept.len(), kept.as_ptr());
    // SAFETY: kept is a borrow of that length and only read; the access is passed as numbers
    told(|answer| unsafe {
        tahvenno_translate(kept, words, stream, substream, address, how, memattr, sh, hints, answer.as_mut_ptr())
    })
}

pub(crate) fn check_batch(kept: &[u64], table: &[u64], [original, proposed]: [&[u8]; 2], features: u64) -> Told {
    let (words, table_words, bytes, proposed_bytes) = (kept.len(), table.len(), original.len(), proposed.len());
    let (kept, table, original, proposed) = (kept.as_ptr(), table.as_ptr(), original.as_ptr(), proposed.as_ptr());
    // SAFETY: all four are only read, and the two batches may be one
    told(|answer| unsafe {
        let answer = answer.as_mut_ptr();
        #[rustfmt::skip]
        let number = tahvenno_check_batch(
            kept, words, table, table_words, original, bytes, proposed, proposed_bytes, features, answer,
        );
        number
    })
}

pub(crate) fn state(kept: &[u64]) -> Told {
    let (words, kept) = (kept.len(), kept.as_ptr());
    // SAFETY: kept is a borrow of that length and only read
    told(|answer| unsafe { tahvenno_state(kept, words, answer.as_mut_ptr()) })
}

pub(crate) fn write_command(slot: &mut [u8], fields: &[u64; COMMAND_WORDS], features: u64) -> Told {
    let (bytes, slot) = (slot.len(), slot.as_mut_ptr());
    // SAFETY: the slot is an exclusive borrow of that length; the fields are the 16 words that the header asks for
    told(|answer| unsafe { tahvenno_write_command(slot, bytes, fields.as_ptr(), features, answer.as_mut_ptr()) })
}

pub(crate) fn write_batch(
    kept: &mut [u64],
    queue: &mut [u8],
    commands: &[[u64; COMMAND_WORDS]],
    features: u64,
) -> Told {
    let commands = commands.as_flattened();
    let (words, bytes, command_words) = (kept.len(), queue.len(), commands.len());
    let (kept, queue, commands) = (kept.as_mut_ptr(), queue.as_mut_ptr(), commands.as_ptr());
    // SAFETY: kept and queue are two exclusive borrows; the commands are only read, and their length is in words
    told(|answer| unsafe {
        tahvenno_write_batch(kept, words, queue, bytes, commands, command_words, features, answer.as_mut_ptr())
    })
}

pub(crate) fn event_write(events: &mut [u64], record: &[u8; RECORD_BYTES], allowance: u64) -> Told {
    let (words, events) = (events.len(), events.as_mut_ptr());
    // SAFETY: the recorder is an exclusive borrow of that length; the record is the 32 bytes that the header asks for
    told(|answer| unsafe { tahvenno_event_write(events, words, record.as_ptr(), allowance, answer.as_mut_ptr()) })
}

pub(crate) fn event_read(events: &mut [u64]) -> Told {
    let (words, events) = (events.len(), events.as_mut_ptr());
    // SAFETY: the recorder is an exclusive borrow of that length
    told(|answer| unsafe { tahvenno_event_read(events, words, answer.as_mut_ptr()) })
}

pub(crate) fn event_acknowledge(events: &mut [u64]) -> Told {
    let (words, events) = (events.len(), events.as_mut_ptr());
    // SAFETY: the recorder is an exclusive borrow of that length
    told(|answer| unsafe { tahvenno_event_acknowledge(events, words, answer.as_mut_ptr()) })
}
