//! Wrong units that go past rows of a sort, at one place of each eight (document 02, T-13).

use super::seen::without;
use super::{RUN, TRANSLATE};
use crate::call::Call;
use crate::lent::{Lent, Memory};
use crate::model::row::{Kind, Regime, Row};
use crate::unit;

/// Rows that a call does not look at: by their sort, and by their number modulo 8.
#[derive(Clone, Copy)]
pub struct Fault {
    call: usize,
    sort: fn(&Row) -> bool,
    place: usize,
}

const FILL: usize = 1;
const EIGHT: usize = 8;

type Sort = (&'static str, fn(&Row) -> bool);

/// Those that answer come first: only they matter to a transaction and to a fill.
const SORTS: [Sort; 9] = [
    ("STE", |row| of(row, Kind::Ste, true)),
    ("CD", |row| of(row, Kind::Cd, true)),
    ("stage 1", |row| of(row, Kind::Stage1, true) && !row.marked()),
    ("stage 2", |row| of(row, Kind::Stage2, true)),
    ("STE, not last-level", |row| of(row, Kind::Ste, false)),
    ("CD, not last-level", |row| of(row, Kind::Cd, false)),
    ("stage 1, global", |row| {
        row.kind() == Kind::Stage1 && row.global() && !row.marked()
    }),
    ("EL2", |row| row.regime() == Some(Regime::El2)),
    ("EL2-E2H", |row| row.regime() == Some(Regime::El2E2h)),
];
const ANSWER: usize = 4;

fn of(row: &Row, kind: Kind, last_level: bool) -> bool {
    row.kind() == kind && row.last_level() == last_level
}

/// Every wrong unit with its name.
pub fn all() -> impl Iterator<Item = (String, Fault)> {
    let calls = [
        ("run", RUN, &SORTS[..]),
        ("translate", TRANSLATE, &SORTS[..ANSWER]),
        ("fill", FILL, &SORTS[..ANSWER]),
    ];
    calls.into_iter().flat_map(|(name, call, sorts)| {
        sorts.iter().flat_map(move |&(what, sort)| {
            (0..EIGHT).map(move |place| {
                let name = format!("{name}: goes past {what} at {place} of eight");
                (name, Fault { call, sort, place })
            })
        })
    })
}

impl Fault {
    /// Makes the call as `unit::perform` does, with the fault.
    pub fn perform(self, call: Call, memory: &mut Memory, answer: &mut Lent) -> u64 {
        if self.call != call.index() {
            return unit::perform(call, memory, answer);
        }
        without(call, memory, answer, |number, row| {
            number % EIGHT == self.place && (self.sort)(row)
        })
    }
}
