//! What document 02, T-12 says of the check of a batch, without carrying out any: a row
//! goes if some command of the batch is after it, since no removal changes another row.

use crate::call::{Call, Reply, DIFFERS, UNQUALIFIED, YES};
use crate::model::command::{decode, Effect, Features};
use crate::model::image::rows;
use crate::model::region::regions;

/// The codes of invalidations.
pub const CODES: [u8; 17] = [
    0x03, 0x04, 0x05, 0x06, 0x10, 0x11, 0x12, 0x13, 0x20, 0x21, 0x22, 0x23, 0x28, 0x2A, 0x30, 0x70,
    0x73,
];

/// The law that a refused check broke, if any.
pub fn refused(call: Call, reply: Reply) -> Option<&'static str> {
    let Call::CheckBatch {
        original, proposed, ..
    } = call
    else {
        return None;
    };
    let broken = original.len() % 16 + proposed.len() % 16 > 0;
    match reply.number {
        1..=3 | 13 | 14 => None,
        23 if broken => None,
        23 => Some("23 for batches of whole commands"),
        _ => Some("a check of a batch gets a refusal that isn't its own"),
    }
}

/// The effect of each command of a batch; None for one that doesn't qualify.
fn effects(batch: &[u8], features: u64) -> Vec<Option<Effect>> {
    let word = |bytes: &[u8]| u64::from_le_bytes(bytes.try_into().expect("eight bytes"));
    let effect = |slot: &[u8]| {
        let (low, high) = (word(&slot[..8]), word(&slot[8..]));
        let effect = decode(low, high, Features::from_bits(features)).ok();
        effect.filter(|_| CODES.contains(&slot[0]))
    };
    batch.chunks(16).map(effect).collect()
}

/// Which rows of either table go.
fn taken((kept, table): (&[u64], &[u64]), effects: &[Option<Effect>]) -> Vec<bool> {
    let by_row = |row| move |effect: &Option<Effect>| matches!(effect, Some(Effect::Remove(scope)) if scope.takes(&row));
    let by_region = |row| move |effect: &Option<Effect>| matches!(effect, Some(Effect::RemoveRegions(scope)) if scope.takes(&row));
    let rows = rows(kept).map(|row| effects.iter().any(by_row(row)));
    let regions = regions(table).map(|row| effects.iter().any(by_region(row)));
    rows.chain(regions).collect()
}

/// The law that a check broke which was carried out, if any.
pub fn broken(
    lent: (&[u64], &[u64]),
    batches: [&[u8]; 2],
    features: u64,
    reply: Reply,
) -> Option<&'static str> {
    if batches.iter().any(|batch| batch.len() % 16 > 0) {
        return Some("no 23 for a batch of commands that aren't whole");
    }
    let effects = batches.map(|batch| effects(batch, features));
    let unfit = |batch: usize| effects[batch].iter().position(Option::is_none);
    let due = match (unfit(0), unfit(1)) {
        (Some(number), _) => [UNQUALIFIED, 0, number as u64],
        (None, Some(number)) => [UNQUALIFIED, 1, number as u64],
        (None, None) => {
            let [one, other] = effects.map(|effects| taken(lent, &effects));
            match one.iter().zip(&other).position(|(one, other)| one != other) {
                Some(row) => [DIFFERS, row as u64, 0],
                None => [YES, 0, 0],
            }
        }
    };
    let right = reply.answer[..3] == due && reply.answer[3..] == [0; 5];
    (!right).then_some("a check says something else than scopes and codes do")
}
