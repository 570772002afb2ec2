//! Words and bytes lent to the unit, with a margin on both sides to see stores outside.

use crate::generate::random::Random;

const MARGIN: usize = 4;

pub struct Lent {
    words: Vec<u64>,
    margins: [u64; 2 * MARGIN],
}

impl Lent {
    pub fn new(inner: &[u64], garbage: &mut Random) -> Lent {
        let margins: [u64; 2 * MARGIN] = std::array::from_fn(|_| garbage.next());
        let words = [&margins[..MARGIN], inner, &margins[MARGIN..]].concat();
        Lent { words, margins }
    }

    pub fn inner(&self) -> &[u64] {
        &self.words[MARGIN..self.words.len() - MARGIN]
    }

    pub fn inner_mut(&mut self) -> &mut [u64] {
        let end = self.words.len() - MARGIN;
        &mut self.words[MARGIN..end]
    }

    pub fn margins_kept(&self) -> bool {
        let end = self.words.len() - MARGIN;
        self.words[..MARGIN] == self.margins[..MARGIN]
            && self.words[end..] == self.margins[MARGIN..]
    }
}

/// The same of bytes, which may stand at any address.
pub struct Bytes {
    bytes: Vec<u8>,
    before: Vec<u8>,
    after: Vec<u8>,
}

impl Bytes {
    fn none() -> Bytes {
        Bytes {
            bytes: Vec::new(),
            before: Vec::new(),
            after: Vec::new(),
        }
    }

    pub fn new(inner: &[u8], garbage: &mut Random) -> Bytes {
        let mut margin = |least: u64| -> Vec<u8> {
            let length = garbage.between(least, 3 * least);
            (0..length).map(|_| garbage.next() as u8).collect()
        };
        let (before, after) = (margin(16), margin(16));
        let bytes = [&before, inner, &after].concat();
        Bytes {
            bytes,
            before,
            after,
        }
    }

    fn place(&self) -> std::ops::Range<usize> {
        self.before.len()..self.bytes.len() - self.after.len()
    }

    pub fn inner(&self) -> &[u8] {
        &self.bytes[self.place()]
    }

    pub fn margins_kept(&self) -> bool {
        self.bytes.starts_with(&self.before) && self.bytes.ends_with(&self.after)
    }
}

/// What a call stores to: the kept memory, or the recorder's words, and beside it the
/// second table, and a slot or a queue, which few calls are passed.
pub struct Memory {
    kept: Lent,
    table: Lent,
    bytes: Bytes,
}

impl Memory {
    pub fn new(kept: &[u64], table: &[u64], garbage: &mut Random) -> Memory {
        Memory {
            kept: Lent::new(kept, garbage),
            table: Lent::new(table, garbage),
            bytes: Bytes::none(),
        }
    }

    /// With these bytes, for a call that is passed some.
    pub fn and(self, bytes: &[u8], garbage: &mut Random) -> Memory {
        let bytes = Bytes::new(bytes, garbage);
        Memory { bytes, ..self }
    }

    /// Other words beside a copy of the second table and of the bytes.
    pub fn beside(&self, kept: &[u64]) -> Memory {
        let garbage = &mut Random::new(0);
        let memory = Memory::new(kept, self.table(), garbage);
        match self.bytes().len() {
            0 => memory,
            _ => memory.and(self.bytes(), garbage),
        }
    }

    /// The same words, the same second table and the same bytes once more.
    pub fn copy(&self) -> Memory {
        self.beside(self.inner())
    }

    /// Takes over what stands in another one of these lengths.
    pub fn take(&mut self, other: &Memory) {
        self.inner_mut().copy_from_slice(other.inner());
        self.table_mut().copy_from_slice(other.table());
        self.bytes_mut().copy_from_slice(other.bytes());
    }

    /// The kept memory, or the recorder's words.
    pub fn inner(&self) -> &[u64] {
        self.kept.inner()
    }

    pub fn inner_mut(&mut self) -> &mut [u64] {
        self.kept.inner_mut()
    }

    pub fn table(&self) -> &[u64] {
        self.table.inner()
    }

    pub fn table_mut(&mut self) -> &mut [u64] {
        self.table.inner_mut()
    }

    /// The slot or the queue that is written.
    pub fn bytes(&self) -> &[u8] {
        self.bytes.inner()
    }

    pub fn bytes_mut(&mut self) -> &mut [u8] {
        let place = self.bytes.place();
        &mut self.bytes.bytes[place]
    }

    pub fn margins_kept(&self) -> bool {
        self.kept.margins_kept() && self.table.margins_kept() && self.bytes.margins_kept()
    }
}
