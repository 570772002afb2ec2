//! Runs something with the stack at a chosen place within a cache line.
//!
//! What counts is where the stack stands when a side is called. So a third side,
//! which only looks where it stands, is sent the same way ahead.

use crate::sides::Side;
use std::hint::black_box;
use std::mem::MaybeUninit;
use std::sync::atomic::{AtomicUsize, Ordering};

/// A stack pointer is a multiple of 16, and a cache line has 64 bytes.
pub const PLACES: usize = 4;

static SEEN: AtomicUsize = AtomicUsize::new(PLACES);

pub const LOOK: Side = Side {
    run: look_run,
    check: look_check,
    fill: look_fill,
    translate: look_translate,
};

unsafe extern "C" fn look_run(
    _: *mut u64,
    _: usize,
    _: *mut u64,
    _: usize,
    _: *const u8,
    _: usize,
    _: u64,
    _: u64,
    _: *mut u64,
) -> u64 {
    look()
}

unsafe extern "C" fn look_check(
    _: *const u64,
    _: usize,
    _: *const u64,
    _: usize,
    _: *const u8,
    _: usize,
    _: *const u8,
    _: usize,
    _: u64,
    _: *mut u64,
) -> u64 {
    look()
}

unsafe extern "C" fn look_fill(
    _: *mut u64,
    _: usize,
    _: u64,
    _: u64,
    _: u64,
    _: u64,
    _: u64,
    _: u64,
    _: *mut u64,
) -> u64 {
    look()
}

unsafe extern "C" fn look_translate(
    _: *const u64,
    _: usize,
    _: u32,
    _: u32,
    _: u64,
    _: u64,
    _: u64,
    _: u64,
    _: u64,
    _: *mut u64,
) -> u64 {
    look()
}

#[inline(never)]
fn look() -> u64 {
    let mark = black_box([0u64; 2]);
    let address = black_box(&raw const mark) as usize;
    SEEN.store(address / 16 % PLACES, Ordering::Relaxed);
    0
}

#[inline(never)]
fn lowered<const BYTES: usize>(work: &mut dyn FnMut(bool), real: bool) {
    let mut room = MaybeUninit::<[u8; BYTES]>::uninit();
    black_box(room.as_mut_ptr());
    work(real);
    black_box(room.as_mut_ptr());
}

fn by_step(step: usize, work: &mut dyn FnMut(bool), real: bool) {
    match step {
        0 => lowered::<16>(work, real),
        1 => lowered::<32>(work, real),
        2 => lowered::<48>(work, real),
        _ => lowered::<64>(work, real),
    }
}

/// Does the work at a place: told `false` it has to call `LOOK`, told `true` it
/// does what is wanted. Which step leads to the place is another at every start.
pub fn at_place(place: usize, work: &mut dyn FnMut(bool)) {
    for step in 0..PLACES {
        by_step(step, work, false);
        if SEEN.load(Ordering::Relaxed) == place {
            return by_step(step, work, true);
        }
    }
    panic!("no step leads to place {place} of the stack");
}
