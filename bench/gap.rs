//! A gap in the program's code, as long as BENCH_GAP says at build time.
//!
//! It moves the code behind it. Where code stands changes times though not one
//! instruction is another, so `bench/run` measures several builds.

use std::arch::global_asm;
use std::hint::black_box;

const BYTES: usize = match option_env!("BENCH_GAP") {
    None => 0,
    Some(text) => match usize::from_str_radix(text, 10) {
        Ok(bytes) => bytes,
        Err(_) => panic!("BENCH_GAP is no number"),
    },
};

global_asm!(
    ".globl bench_gap",
    "bench_gap:",
    ".skip {bytes}",
    bytes = const BYTES
);

extern "C" {
    fn bench_gap();
}

/// Keeps the gap in the program; linkers drop what nobody names.
pub fn keep() {
    black_box(bench_gap as *const ());
}
