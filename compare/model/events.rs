//! The event recorder (document 02, T-01): an index word and 2^n slots of four
//! words, a memory of its own.

use super::refusal::Refusal;
use super::words::{bit, part, with_part};
use crate::limits::{event_words, EVENTS};

/// The index word.
#[derive(Clone, Copy, Debug, PartialEq, Eq)]
pub struct Index {
    pub rd: u64,
    pub wr: u64,
    pub overflow: bool,
    pub acknowledged: bool,
    pub n: u64,
}

impl Index {
    /// The fields as they stand, well formed or not.
    pub fn fields(word: u64) -> Index {
        Index {
            rd: part(word, 19, 0),
            wr: part(word, 39, 20),
            overflow: bit(word, 40),
            acknowledged: bit(word, 41),
            n: part(word, 46, 42),
        }
    }

    pub fn pack(&self) -> u64 {
        let word = with_part(0, 19, 0, self.rd);
        let word = with_part(word, 39, 20, self.wr);
        let word = with_part(word, 40, 40, self.overflow.into());
        let word = with_part(word, 41, 41, self.acknowledged.into());
        with_part(word, 46, 42, self.n)
    }

    /// The fields of a word that is well formed for a ring of 2^n slots.
    fn well_formed(word: u64, n: u64) -> Option<Index> {
        let index = Index::fields(word);
        let fits = index.n == n
            && part(word, 63, 47) == 0
            && index.rd < index.ring()
            && index.wr < index.ring()
            && index.held() <= index.slots();
        fits.then_some(index)
    }

    pub fn slots(&self) -> u64 {
        1 << self.n
    }

    /// Indexes run through twice the slots, as those of the command queue do.
    pub fn ring(&self) -> u64 {
        2 * self.slots()
    }

    /// How many records wait to be read; both indexes are below the ring.
    pub fn held(&self) -> u64 {
        (self.wr + self.ring() - self.rd) % self.ring()
    }

    pub fn full(&self) -> bool {
        self.held() == self.slots()
    }

    /// An overflow that nobody has acknowledged.
    pub fn outstanding(&self) -> bool {
        self.overflow != self.acknowledged
    }

    /// The place of the first word of an index's slot.
    pub fn place(&self, index: u64) -> usize {
        1 + 4 * (index % self.slots()) as usize
    }
}

#[derive(Clone, Copy, Debug, PartialEq, Eq)]
pub enum End {
    Stored,
    Dropped,
    Cut,
}

#[derive(Clone, Copy, Debug, PartialEq, Eq)]
pub struct Written {
    pub end: End,
    pub stores: u64,
}

/// The index word's fields, or the refusal due before any other.
pub fn accept(events: &[u64]) -> Result<Index, Refusal> {
    let n = (0..=EVENTS).find(|&n| event_words(n) == events.len());
    let n = n.ok_or(Refusal::EventsLength)?;
    Index::well_formed(events[0], n).ok_or(Refusal::EventsIndex)
}

/// Writes a record behind the others, or drops it.
pub fn write(events: &mut [u64], record: &[u8; 32], allowance: u64) -> Result<Written, Refusal> {
    let index = accept(events)?;
    let (end, due) = if index.full() {
        (End::Dropped, drop_stores(index))
    } else {
        (End::Stored, record_stores(index, record))
    };
    let stores = allowance.min(due.len() as u64);
    for &(place, word) in due.iter().take(stores as usize) {
        events[place] = word;
    }
    let whole = stores == due.len() as u64;
    let end = if whole { end } else { End::Cut };
    Ok(Written { end, stores })
}

/// The record's words from the first to the last, then the index word.
fn record_stores(index: Index, record: &[u8; 32]) -> Vec<(usize, u64)> {
    let first = index.place(index.wr);
    let words = record.chunks_exact(8).map(little_endian);
    let mut stores: Vec<_> = (first..).zip(words).collect();
    let wr = (index.wr + 1) % index.ring();
    stores.push((0, Index { wr, ..index }.pack()));
    stores
}

/// The overflow flag changes unless an overflow is outstanding already.
fn drop_stores(index: Index) -> Vec<(usize, u64)> {
    if index.outstanding() {
        return Vec::new();
    }
    let overflow = !index.overflow;
    vec![(0, Index { overflow, ..index }.pack())]
}

fn little_endian(bytes: &[u8]) -> u64 {
    let higher_first = bytes.iter().rev();
    higher_first.fold(0, |word, &byte| word << 8 | u64::from(byte))
}

/// Takes the oldest record out.
pub fn read(events: &mut [u64]) -> Result<[u64; 4], Refusal> {
    let index = accept(events)?;
    if index.held() == 0 {
        return Err(Refusal::NoEvent);
    }
    let first = index.place(index.rd);
    let rd = (index.rd + 1) % index.ring();
    events[0] = Index { rd, ..index }.pack();
    Ok(std::array::from_fn(|word| events[first + word]))
}

/// Ends an outstanding overflow.
pub fn acknowledge(events: &mut [u64]) -> Result<(), Refusal> {
    let index = accept(events)?;
    if !index.outstanding() {
        return Err(Refusal::NoOverflow);
    }
    let acknowledged = index.overflow;
    let index = Index {
        acknowledged,
        ..index
    };
    events[0] = index.pack();
    Ok(())
}
