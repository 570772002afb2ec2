//! Whether a proposed batch of invalidations leaves what the original leaves.

use super::allowance::Allowance;
use super::command::{self, Command};
use super::features::Features;
use super::refusal::Refusal;
use super::remove::remove;
use super::{image, region, row};

pub enum Verdict {
    Same,
    /// The batch, and the command in it.
    Unfit(u64, u64),
    Differ(u64),
}

pub fn check_batch(
    kept: &[u64],
    table: &[u64],
    batches: [&[u8]; 2],
    features: u64,
) -> Result<Verdict, Refusal> {
    image::check(kept)?;
    image::check_table(table)?;
    let broken = |batch: &&[u8]| batch.len() % command::BYTES != 0;
    if batches.iter().any(broken) {
        return Err(Refusal::BatchLength);
    }
    let features = features.into();
    let mut decoded = Vec::new();
    for (number, batch) in (0..).zip(batches) {
        match decode(batch, features) {
            Ok(commands) => decoded.push(commands),
            Err(place) => return Ok(Verdict::Unfit(number, place)),
        }
    }
    let left = |commands: &Vec<Command>| Left::by(commands, &kept[1..], table);
    let left: Vec<Left> = decoded.iter().map(left).collect();
    Ok(match left[0].first_difference(&left[1]) {
        Some(place) => Verdict::Differ(place as u64),
        None => Verdict::Same,
    })
}

/// The commands, or the first one that is no legal invalidation.
fn decode(batch: &[u8], features: Features) -> Result<Vec<Command>, u64> {
    let mut commands = Vec::new();
    for (place, slot) in (0..).zip(batch.chunks_exact(command::BYTES)) {
        match command::decode(slot, features) {
            Err(_) | Ok(Command::Prefetch | Command::Sync { .. }) => return Err(place),
            Ok(command) => commands.push(command),
        }
    }
    Ok(commands)
}

/// What a batch leaves.
struct Left {
    rows: Vec<u64>,
    table: Vec<u64>,
}

impl Left {
    fn by(commands: &[Command], rows: &[u64], table: &[u64]) -> Left {
        let (mut rows, mut table) = (rows.to_vec(), table.to_vec());
        let mut allowance = Allowance::new(u64::MAX);
        for command in commands {
            // More stores than there are words can't be due.
            let _ = remove(command, &mut rows, &mut table, &mut allowance);
        }
        Left { rows, table }
    }

    /// Rows of the second table are counted on behind the others.
    fn first_difference(&self, other: &Left) -> Option<usize> {
        let rows = difference(&self.rows, &other.rows, row::WORDS);
        rows.or_else(|| {
            let place = difference(&self.table, &other.table, region::WORDS)?;
            Some(self.rows.len() / row::WORDS + place)
        })
    }
}

fn difference(first: &[u64], second: &[u64], each: usize) -> Option<usize> {
    let mut pairs = first.chunks_exact(each).zip(second.chunks_exact(each));
    pairs.position(|(first, second)| first != second)
}
