//! Recorders: rings of any size and standing, what is in their slots, and records.

use super::random::Random;
use crate::limits::EVENTS;
use crate::model::events::Index;

/// A ring of 2^n slots with so many records from `rd` on. The flags are overflow
/// and, twice as much, its acknowledgement.
pub fn ring(n: u64, rd: u64, held: u64, flags: u64) -> Index {
    Index {
        rd,
        wr: (rd + held) % (2 << n),
        overflow: flags & 1 == 1,
        acknowledged: flags & 2 == 2,
        n,
    }
}

/// An index word before slots that hold anything.
pub fn memory(random: &mut Random, index: Index) -> Vec<u64> {
    let slots = (0..4 * index.slots()).map(|_| random.next());
    std::iter::once(index.pack()).chain(slots).collect()
}

pub fn record(random: &mut Random) -> [u8; 32] {
    std::array::from_fn(|_| random.next() as u8)
}

/// Rings of 2^n slots: every one if they are few, else those around the ends.
pub fn rings(n: u64) -> Vec<Index> {
    let (slots, ring) = (1u64 << n, 2u64 << n);
    let (starts, counts): (Vec<u64>, Vec<u64>) = if n <= 3 {
        ((0..ring).collect(), (0..=slots).collect())
    } else {
        let starts = vec![0, 1, slots - 1, slots, slots + 1, ring - 1];
        (starts, vec![0, 1, slots - 1, slots])
    };
    let each = |rd: u64| counts.iter().map(move |&held| (rd, held));
    let places: Vec<_> = starts.into_iter().flat_map(each).collect();
    let flagged = |(rd, held)| (0..4).map(move |flags| self::ring(n, rd, held, flags));
    places.into_iter().flat_map(flagged).collect()
}

/// A ring of any size, often full, empty or nearly so.
pub fn any_ring(random: &mut Random) -> Index {
    let n = random.between(0, EVENTS);
    let slots = 1u64 << n;
    let rd = random.below(2 * slots);
    let some = random.below(slots + 1);
    let held = random.pick(&[0, 1, slots - 1, slots, slots, some]);
    ring(n, rd, held, random.below(4))
}

/// Makes a recorder wrong in a way or two, so that orders are seen; now and then it
/// is none the worse for it.
pub fn damage(random: &mut Random, events: &mut Vec<u64>) {
    for _ in 0..random.between(1, 2) {
        let length = events.len();
        let other = random.pick(&[1, 5, 9, 17, 33, 65, 129, 257, 513, 1025]);
        let near = (length + 4).saturating_sub(random.below(9) as usize);
        match random.below(8) {
            0 => events.resize(near, 0),
            1 => events.resize(other, 0),
            2..=4 => events[0] ^= 1 << random.below(64),
            5 => events[0] ^= 1 << random.between(42, 46),
            6 => events[0] ^= 1 << random.pick(&[0, 1, 20, 21, 27, 28]),
            _ => events[0] = random.any_width(),
        }
        if events.is_empty() {
            break;
        }
    }
}
