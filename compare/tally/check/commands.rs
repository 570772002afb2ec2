//! The commands of checked batches: each code where it stands and what it takes, and
//! those that don't qualify.

use super::{add, heads, line, Asked};
use crate::call::{Reply, DIFFERS, UNQUALIFIED, YES};
use crate::generate::commands::CODES;
use crate::model::command::{decode, Effect, Features};
use crate::model::image;
use crate::model::reason::Reason;
use crate::model::region;
use crate::tally::Table;

/// In a batch that qualifies: alone, first, between, last; it takes rows, it takes none;
/// the batches differ by what it takes.
const PLACES: [&str; 7] = [
    "alone", "first", "between", "last", "takes", "idle", "differs",
];
/// One that doesn't qualify: alone, first, between, last in its batch; with another one
/// behind it; with one in the other batch; with rows that differ if it is left out.
const UNFIT: [&str; 7] = [
    "alone", "first", "between", "last", "more", "both", "differs",
];
const CAUSES: [&str; 9] = [
    "01",
    "02",
    "46, CS 0",
    "46, CS 1",
    "46, CS 2",
    "unknown",
    "absent",
    "reserved",
    "parameter",
];

/// Larger ones are not counted: that would take long.
const LARGE: usize = 1 << 14;

#[derive(Default)]
pub struct Commands {
    places: [[[u64; PLACES.len()]; CODES.len()]; 2],
    unfit: [[[u64; UNFIT.len()]; CAUSES.len()]; 2],
}

fn word(bytes: &[u8]) -> u64 {
    u64::from_le_bytes(bytes.try_into().expect("eight bytes"))
}

fn effect(slot: &[u8], features: u64) -> Result<Effect, Reason> {
    let (low, high) = (word(&slot[..8]), word(&slot[8..]));
    decode(low, high, Features::from_bits(features))
}

/// Why a command doesn't qualify, by its place among the causes.
fn cause(slot: &[u8], features: u64) -> Option<usize> {
    match (effect(slot, features), slot[0]) {
        (Err(Reason::UnknownCode), _) => Some(5),
        (Err(Reason::FeatureAbsent), _) => Some(6),
        (Err(Reason::ReservedBit), _) => Some(7),
        (Err(Reason::BadParameter), _) => Some(8),
        (Ok(_), 0x01) => Some(0),
        (Ok(_), 0x02) => Some(1),
        (Ok(_), 0x46) => Some(2 + usize::from(slot[1] >> 4 & 3)),
        (Ok(_), _) => None,
    }
}

pub fn first_unfit(batch: &[u8], features: u64) -> Option<usize> {
    let unfit = |slot: &[u8]| cause(slot, features).is_some();
    batch.chunks_exact(16).position(unfit)
}

/// How many commands of a batch are after each row of either table.
pub fn taken(batch: &[u8], features: u64, (kept, table): (&[u64], &[u64])) -> Vec<usize> {
    let rows = image::rows(kept).count();
    let mut counts = vec![0; rows + region::regions(table).count()];
    for slot in batch.chunks_exact(16) {
        match effect(slot, features) {
            Ok(Effect::Remove(scope)) => {
                for (count, row) in counts.iter_mut().zip(image::rows(kept)) {
                    *count += usize::from(scope.takes(&row));
                }
            }
            Ok(Effect::RemoveRegions(scope)) => {
                for (count, row) in counts[rows..].iter_mut().zip(region::regions(table)) {
                    *count += usize::from(scope.takes(&row));
                }
            }
            _ => (),
        }
    }
    counts
}

fn differ(one: &[usize], other: &[usize]) -> bool {
    let mut pairs = one.iter().zip(other);
    pairs.any(|(&one, &other)| (one > 0) != (other > 0))
}

/// Alone, first, between and last.
fn place(number: usize, count: usize) -> [bool; 4] {
    let (first, last) = (number == 0, number + 1 == count);
    [
        first && last,
        first && !last,
        !first && !last,
        last && !first,
    ]
}

impl Commands {
    pub fn count(&mut self, asked: Asked, lent: (&[u64], &[u64]), reply: &Reply) {
        let commands = asked.batches.map(|batch| batch.len() / 16);
        if (commands[0] + commands[1]) * (lent.0.len() / 4 + lent.1.len() / 2) > LARGE {
            return;
        }
        let [says, batch, number, ..] = reply.answer.map(|word| word as usize);
        match says as u64 {
            YES | DIFFERS => {
                self.count_places(asked, lent, 0);
                self.count_places(asked, lent, 1);
            }
            UNQUALIFIED => self.count_unfit(asked, lent, (batch, number)),
            _ => (),
        }
    }

    fn count_places(&mut self, asked: Asked, lent: (&[u64], &[u64]), batch: usize) {
        let Asked { batches, features } = asked;
        let other = taken(batches[1 - batch], features, lent);
        let own = taken(batches[batch], features, lent);
        let count = batches[batch].len() / 16;
        for (number, slot) in batches[batch].chunks_exact(16).enumerate() {
            let takes = taken(slot, features, lent);
            let alone = own.iter().zip(&takes).map(|(&all, &one)| all - one);
            let without: Vec<usize> = alone.collect();
            let [alone, first, between, last] = place(number, count);
            let some = takes.iter().any(|&count| count > 0);
            let matters = differ(&own, &other) && !differ(&without, &other);
            let met = [alone, first, between, last, some, !some, matters];
            let code = CODES.iter().position(|&code| code == slot[0].into());
            if let Some(code) = code {
                add(&mut self.places[batch][code], met);
            }
        }
    }

    fn count_unfit(
        &mut self,
        asked: Asked,
        lent: (&[u64], &[u64]),
        (batch, number): (usize, usize),
    ) {
        let Asked { batches, features } = asked;
        let own = batches[batch];
        let Some(cause) = cause(&own[16 * number..][..16], features) else {
            return;
        };
        let [alone, first, between, last] = place(number, own.len() / 16);
        let more = first_unfit(&own[16 * number + 16..], features).is_some();
        let both = first_unfit(batches[1 - batch], features).is_some();
        let [one, other] = batches.map(|batch| taken(batch, features, lent));
        let met = [
            alone,
            first,
            between,
            last,
            more,
            both,
            differ(&one, &other),
        ];
        add(&mut self.unfit[batch][cause], met);
    }

    pub fn print(&self, table: &mut Table) {
        for (title, places) in ["Original", "Proposed"].iter().zip(&self.places) {
            heads(title, &PLACES);
            for (code, counts) in CODES.iter().zip(places) {
                if !matches!(code, 0x01 | 0x02 | 0x46) {
                    let counts = counts.map(|count| (count, true));
                    line(table, &format!("{code:02X}"), counts);
                }
            }
        }
        for (batch, causes) in self.unfit.iter().enumerate() {
            heads(["Unfit, orig.", "Unfit, prop."][batch], &UNFIT);
            for (cause, counts) in CAUSES.iter().zip(causes) {
                // The proposal is searched only if the original is fit.
                let wanted = |way: &str| batch == 0 || way != "both";
                let counts = counts.iter().zip(UNFIT);
                line(
                    table,
                    cause,
                    counts.map(|(&count, way)| (count, wanted(way))),
                );
            }
        }
    }
}
