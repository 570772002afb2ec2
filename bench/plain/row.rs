//! A row of the kept memory, taken apart.

use super::bits::{bit, field};
use super::span::Span;

pub const WORDS: usize = 4;

#[derive(Clone, Copy, PartialEq, Eq)]
pub enum Kind {
    Ste,
    Cd,
    Stage1,
    Stage2,
}

/// Whose mapping a stage 1 row is.
#[derive(Clone, Copy, PartialEq, Eq)]
pub enum Mark {
    Guest,
    El2,
    El2E2h,
}

#[derive(Clone, Copy)]
pub struct Row {
    pub kind: Kind,
    pub mark: Mark,
    pub last_level: bool,
    pub global: bool,
    pub span: u32,
    pub vmid: u16,
    pub asid: u16,
    pub payload: u16,
    pub stream: u32,
    pub substream: u32,
    pub config: u8,
    pub input: u64,
    pub output: u64,
}

impl Row {
    /// None if it is empty. Whether it is well formed is `form`'s question.
    pub fn decode(words: &[u64]) -> Option<Row> {
        let &[w0, w1, input, output] = words else {
            return None;
        };
        if w0 == 0 {
            return None;
        }
        Some(Row {
            kind: kind(w0),
            mark: mark(w0),
            last_level: bit(w0, 3),
            global: bit(w0, 4),
            span: field(w0, 10, 5) as u32,
            vmid: field(w0, 31, 16) as u16,
            asid: field(w0, 47, 32) as u16,
            payload: field(w0, 63, 48) as u16,
            stream: field(w1, 31, 0) as u32,
            substream: field(w1, 51, 32) as u32,
            config: field(w1, 54, 52) as u8,
            input,
            output,
        })
    }

    /// The addresses that a row of a stage translates.
    pub fn addresses(&self) -> Span {
        Span {
            first: self.input,
            last: self.input | ((1 << self.span) - 1),
        }
    }

    /// Where an address that it covers goes.
    pub fn translate(&self, address: u64) -> u64 {
        self.output + (address - self.input)
    }
}

fn kind(w0: u64) -> Kind {
    match field(w0, 2, 1) {
        0 => Kind::Ste,
        1 => Kind::Cd,
        2 => Kind::Stage1,
        _ => Kind::Stage2,
    }
}

fn mark(w0: u64) -> Mark {
    match (bit(w0, 11), bit(w0, 12)) {
        (false, false) => Mark::Guest,
        (true, _) => Mark::El2,
        (false, true) => Mark::El2E2h,
    }
}
