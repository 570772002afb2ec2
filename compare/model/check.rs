//! The check of a shortened batch (document 02, T-12).

use super::command::{decode, Effect, Features};
use super::image;
use super::refusal::Refusal;
use super::region::{self, Region};
use super::row::Row;

#[derive(Clone, Copy, Debug, PartialEq, Eq)]
pub enum Verdict {
    Yes,
    /// The first command that doesn't qualify, by its number in its batch.
    Unqualified {
        proposed: bool,
        number: usize,
    },
    /// The lowest row that differs; those of the second table follow the others.
    Differs(usize),
}

/// Low and high word.
type Command = (u64, u64);

/// The rows of both tables.
#[derive(Clone, PartialEq, Eq)]
struct Rows {
    rows: Vec<Row>,
    regions: Vec<Region>,
}

/// Neither batch is run on the kept memory: each is carried out on rows of its own.
pub fn check_batch(
    kept: &[u64],
    table: &[u64],
    original: &[u8],
    proposed: &[u8],
    features: Features,
) -> Result<Verdict, Refusal> {
    image::accept(kept)?;
    region::accept(table)?;
    let whole = |batch: &[u8]| batch.len() % 16 == 0;
    if !whole(original) || !whole(proposed) {
        return Err(Refusal::BatchLength);
    }
    for (proposed, batch) in [(false, original), (true, proposed)] {
        let unfit = |command| !qualifies(command, features);
        if let Some(number) = commands(batch).position(unfit) {
            return Ok(Verdict::Unqualified { proposed, number });
        }
    }
    let rows = Rows {
        rows: image::rows(kept).collect(),
        regions: region::regions(table).collect(),
    };
    let one = rows.clone().after(original, features);
    let other = rows.after(proposed, features);
    Ok(match one.lowest_differing(&other) {
        Some(row) => Verdict::Differs(row),
        None => Verdict::Yes,
    })
}

/// The commands of a batch; the guest's bytes are little-endian.
fn commands(batch: &[u8]) -> impl Iterator<Item = Command> + '_ {
    let word = |bytes: &[u8]| u64::from_le_bytes(bytes.try_into().expect("eight bytes"));
    let halves = move |bytes: &[u8]| (word(&bytes[..8]), word(&bytes[8..]));
    batch.chunks_exact(16).map(halves)
}

/// The codes that are there to invalidate something. That one exists and is legal under
/// the features is asked beside it.
fn invalidation(code: u64) -> bool {
    matches!(code, 0x03..=0x30 | 0x70 | 0x73)
}

fn qualifies((low, high): Command, features: Features) -> bool {
    invalidation(low & 0xFF) && decode(low, high, features).is_ok()
}

impl Rows {
    /// One command after the other, each of them whole.
    fn after(mut self, batch: &[u8], features: Features) -> Rows {
        for (low, high) in commands(batch) {
            if let Ok(effect) = decode(low, high, features) {
                self.carry_out(effect);
            }
        }
        self
    }

    fn carry_out(&mut self, effect: Effect) {
        match effect {
            Effect::Remove(scope) => {
                let taken = self.rows.iter_mut().filter(|row| scope.takes(row));
                taken.for_each(|row| row.0[0] = 0);
            }
            Effect::RemoveRegions(scope) => {
                let taken = self.regions.iter_mut().filter(|row| scope.takes(row));
                taken.for_each(|row| row.0[0] = 0);
            }
            Effect::Nothing | Effect::TooWide | Effect::Signal => (),
        }
    }

    fn lowest_differing(&self, other: &Rows) -> Option<usize> {
        let mut rows = self.rows.iter().zip(&other.rows);
        let mut regions = self.regions.iter().zip(&other.regions);
        let row = rows.position(|(one, other)| one != other);
        row.or_else(|| {
            let region = regions.position(|(one, other)| one != other);
            region.map(|region| self.rows.len() + region)
        })
    }
}
