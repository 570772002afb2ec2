//! The control word.

use super::bits::{bit, field};

const MAX_LOG2SIZE: u64 = 12;

#[derive(Clone, Copy)]
pub struct Control {
    pub rd: u64,
    pub wr: u64,
    pub err: u64,
    pub gerror: bool,
    pub gerrorn: bool,
    pub enabled: bool,
    pub log2size: u64,
    pub pending: bool,
}

impl Control {
    /// None if the word is ill formed.
    pub fn decode(word: u64) -> Option<Control> {
        let control = Control {
            rd: field(word, 19, 0),
            wr: field(word, 39, 20),
            err: field(word, 46, 40),
            gerror: bit(word, 47),
            gerrorn: bit(word, 48),
            enabled: bit(word, 49),
            log2size: field(word, 54, 50),
            pending: bit(word, 55),
        };
        (field(word, 63, 56) == 0 && control.well_formed()).then_some(control)
    }

    pub fn encode(&self) -> u64 {
        self.rd
            | self.wr << 20
            | self.err << 40
            | u64::from(self.gerror) << 47
            | u64::from(self.gerrorn) << 48
            | u64::from(self.enabled) << 49
            | self.log2size << 50
            | u64::from(self.pending) << 55
    }

    fn well_formed(&self) -> bool {
        if self.log2size > MAX_LOG2SIZE {
            return false;
        }
        self.rd < self.indexes()
            && self.wr < self.indexes()
            && self.wr.wrapping_sub(self.rd) % self.indexes() <= self.slots()
            && self.err <= 1
            && (self.err == 1 || !self.active())
    }

    pub fn slots(&self) -> u64 {
        1 << self.log2size
    }

    /// Indexes go round twice as late as slots.
    fn indexes(&self) -> u64 {
        2 << self.log2size
    }

    pub fn active(&self) -> bool {
        self.gerror != self.gerrorn
    }

    pub fn slot(&self) -> u64 {
        self.rd % self.slots()
    }

    /// Behind a command that was carried out.
    pub fn advanced(self, interrupt: bool) -> Control {
        Control {
            rd: (self.rd + 1) % self.indexes(),
            pending: self.pending || interrupt,
            ..self
        }
    }

    pub fn raised(self) -> Control {
        Control {
            err: 1,
            gerror: !self.gerror,
            ..self
        }
    }
}
