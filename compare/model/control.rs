//! The control word (document 01, The kept memory; document 02, T-08).

use super::words::{bit, part, with_part};
use crate::limits::LOG2SIZE;

#[derive(Clone, Copy, Debug, PartialEq, Eq)]
pub struct Control {
    pub rd: u64,
    pub wr: u64,
    pub err: u64,
    pub gerror: bool,
    pub gerrorn: bool,
    pub enabled: bool,
    pub log2size: u64,
    /// A completion interrupt that is still to be raised.
    pub pending: bool,
}

impl Control {
    /// The fields as they stand, well formed or not.
    pub fn fields(word: u64) -> Control {
        Control {
            rd: part(word, 19, 0),
            wr: part(word, 39, 20),
            err: part(word, 46, 40),
            gerror: bit(word, 47),
            gerrorn: bit(word, 48),
            enabled: bit(word, 49),
            log2size: part(word, 54, 50),
            pending: bit(word, 55),
        }
    }

    /// The fields of a well-formed word.
    pub fn well_formed(word: u64) -> Option<Control> {
        let control = Control::fields(word);
        (part(word, 63, 56) == 0 && control.consistent()).then_some(control)
    }

    fn consistent(&self) -> bool {
        self.log2size <= LOG2SIZE
            && self.rd < self.ring()
            && self.wr < self.ring()
            && self.distance(self.wr) <= self.slots()
            && self.err <= 1
            && (self.err == 1 || !self.active())
    }

    pub fn pack(&self) -> u64 {
        let word = with_part(0, 19, 0, self.rd);
        let word = with_part(word, 39, 20, self.wr);
        let word = with_part(word, 46, 40, self.err);
        let word = with_part(word, 47, 47, self.gerror.into());
        let word = with_part(word, 48, 48, self.gerrorn.into());
        let word = with_part(word, 49, 49, self.enabled.into());
        let word = with_part(word, 54, 50, self.log2size);
        with_part(word, 55, 55, self.pending.into())
    }

    pub fn active(&self) -> bool {
        self.gerror != self.gerrorn
    }

    pub fn slots(&self) -> u64 {
        1 << self.log2size
    }

    /// Indices run through twice the slots, so that full and empty differ.
    pub fn ring(&self) -> u64 {
        2 * self.slots()
    }

    /// How far `wr` is ahead of RD; both are below the ring.
    pub fn distance(&self, wr: u64) -> u64 {
        (wr + self.ring() - self.rd) % self.ring()
    }

    pub fn slot(&self) -> u64 {
        self.rd % self.slots()
    }
}
