//! Stretches of addresses.

/// The last address is included, so that one may end with the 64-bit space.
#[derive(Clone, Copy)]
pub struct Span {
    pub first: u64,
    pub last: u64,
}

impl Span {
    pub fn single(address: u64) -> Span {
        Span {
            first: address,
            last: address,
        }
    }

    pub fn meets(self, other: Span) -> bool {
        self.first <= other.last && other.first <= self.last
    }

    pub fn holds(self, address: u64) -> bool {
        self.first <= address && address <= self.last
    }
}
