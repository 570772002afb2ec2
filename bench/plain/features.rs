//! What a run is told about the emulated unit.

use super::bits::bit;

#[derive(Clone, Copy)]
pub struct Features {
    pub s1p: bool,
    pub s2p: bool,
    pub asid16: bool,
    pub vmid16: bool,
    pub hyp: bool,
    pub ril: bool,
    pub dpt: bool,
    /// A setting of the guest's rather than a feature.
    pub e2h: bool,
}

impl From<u64> for Features {
    fn from(word: u64) -> Features {
        Features {
            s1p: bit(word, 0),
            s2p: bit(word, 1),
            asid16: bit(word, 2),
            vmid16: bit(word, 3),
            hyp: bit(word, 4),
            ril: bit(word, 5),
            dpt: bit(word, 6),
            e2h: bit(word, 7),
        }
    }
}
