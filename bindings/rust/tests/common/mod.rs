//! What the tests share; each uses a part of it.
#![allow(dead_code)]

pub mod paper;
pub mod rows;

use tahvenno::*;

/// Repeatable numbers (xorshift64*).
pub struct Random(u64);

impl Random {
    pub fn new(seed: u64) -> Self {
        Self(seed | 1)
    }

    pub fn next(&mut self) -> u64 {
        self.0 ^= self.0 >> 12;
        self.0 ^= self.0 << 25;
        self.0 ^= self.0 >> 27;
        self.0.wrapping_mul(0x2545_F491_4F6C_DD1D)
    }

    pub fn below(&mut self, limit: u64) -> u64 {
        (self.next() >> 16) % limit
    }

    pub fn flag(&mut self) -> bool {
        self.below(2) == 1
    }

    pub fn pick<T: Copy>(&mut self, from: &[T]) -> T {
        from[self.below(from.len() as u64) as usize]
    }

    /// A number of so many bits: often the least or the greatest.
    pub fn wide(&mut self, bits: u32) -> u64 {
        let most = u64::MAX >> (64 - bits);
        match self.below(4) {
            0 => 0,
            1 => most,
            _ => self.next() & most,
        }
    }

    /// A number of any width, so that small ones are as common as large.
    pub fn any_width(&mut self) -> u64 {
        let shift = self.below(64);
        self.next() >> shift
    }

    pub fn cache(&mut self) -> Cache {
        self.pick(Cache::ALL)
    }

    pub fn memattr(&mut self) -> MemAttr {
        if self.flag() {
            MemAttr::Device(self.pick(Device::ALL))
        } else {
            MemAttr::Normal { outer: self.cache(), inner: self.cache() }
        }
    }

    /// Attributes that go together.
    pub fn attributes(&mut self) -> Attributes {
        let memattr = self.memattr();
        let (mut inner, mut outer) = (self.wide(3), self.wide(3));
        if let MemAttr::Normal { outer: Cache::NonCacheable, .. } | MemAttr::Device(_) = memattr {
            outer = 0;
        }
        if let MemAttr::Normal { inner: Cache::NonCacheable, .. } | MemAttr::Device(_) = memattr {
            inner = 0;
        }
        let hints = Hints::try_from(inner | outer << 3).expect("six bits");
        Attributes { memattr, sh: self.pick(Shareability::ALL), hints }
    }
}

/// An empty kept memory of one row with an enabled queue of 2^log2size slots.
pub fn one_row(log2size: u8) -> [u64; kept_words(1)] {
    let mut kept = [u64::MAX; kept_words(1)];
    empty(&mut kept, log2size, true).expect("an empty memory");
    kept
}

/// An empty second table of one row.
pub const ONE_REGION: [u64; table_words(1)] = [0; table_words(1)];

/// An access that a test changes.
pub const ACCESS: Access = Access {
    stream: 5,
    substream: 0,
    address: 0x1234,
    write: false,
    instruction: false,
    privileged: false,
    attributes: Attributes::of(MemAttr::WRITE_BACK),
};

/// A stream's row.
pub fn ste(config: Config) -> Row {
    Row::Ste(Ste { stream: 5, vmid: 3, config, overrides: Overrides::NONE })
}

/// A stage 2 page of that stream.
pub const PAGE: Stage2 =
    Stage2 { vmid: 3, span: 12, input: 0x1000, output: 0x8000, memattr: MemAttr::WRITE_BACK, sh: Shareability::Ish };

/// Fills a row that is well formed.
pub fn put(kept: &mut [u64], row: usize, value: Row) {
    let words = value.words().expect("a row that is well formed");
    let told = fill(kept, row, &words, FILL_STORES);
    assert_eq!(told, Ok(Fill { end: FillEnd::Filled, stores: FILL_STORES }), "{value:?}");
}

/// The bytes of commands as a queue has them.
pub fn bytes_of(commands: &[Command]) -> Vec<u8> {
    let mut bytes = vec![0; commands.len() * layout::SLOT_BYTES];
    for (slot, command) in bytes.chunks_exact_mut(layout::SLOT_BYTES).zip(commands) {
        write_command(slot, &command.words(), Features::ALL).expect("a legal command");
    }
    bytes
}
