//! Wrong units that have another idea of the hypervisor's rows and of the commands
//! for them (document 02, T-05).

mod commands;
mod features;

use super::asked::{retold, with, Asked};
use super::seen::{one_by_one, seen};
use super::{doubles, forms};
use crate::call::{Call, FIRST_EVENT, NAMES};
use crate::generate::commands::HYP;
use crate::generate::rows::{EL2, EL2_E2H};
use crate::lent::{Lent, Memory};
use crate::limits::UPPER;
use crate::model::row::{Kind, Regime, Row};
use crate::unit;

#[derive(Clone, Copy)]
pub enum Fault {
    /// Other rows are well formed.
    Form(forms::Fault),
    /// A run without Hyp refuses a memory with marked rows.
    WantsHyp,
    /// Transactions see rows so.
    Looks(fn(Row) -> Row),
    /// The lowest row decides for a transaction, and misses if it is marked.
    Hides,
    /// Commands of one of the codes see rows so.
    Scans(&'static [u8], fn(Row, &Asked) -> Row),
    /// Commands are read so, or the features are for them.
    Reads(fn(Asked) -> Asked),
    /// A command raises with another reason.
    Told(fn(&Asked, u64) -> u64),
    /// Other fills double a row.
    Doubles(doubles::Fault),
}

/// Every wrong unit with its name.
pub fn all() -> Vec<(String, Fault)> {
    let mut all = Vec::new();
    for (call, name) in NAMES[..FIRST_EVENT].iter().enumerate() {
        let fault = Fault::Form(forms::Fault::Refuses(call, owned));
        all.push((format!("{name}: a marked row refused"), fault));
        let fault = Fault::Form(forms::Fault::Takes(call, one_mark));
        all.push((format!("{name}: a row of both marks accepted"), fault));
    }
    let forms = forms::all(&REFUSED, &ACCEPTED);
    all.extend(forms.map(|(name, fault)| (name, Fault::Form(fault))));
    let named = OTHERS.into_iter().chain(commands::ALL);
    all.extend(named.map(|(name, fault)| (name.into(), fault)));
    all.extend(commands::each());
    all.extend(features::ALL.map(|(name, fault)| (name.into(), fault)));
    all
}

const REFUSED: [(&str, fn(&Row) -> bool); 7] = [
    ("an EL2 page", |row| is(row, EL2) && row.last_level()),
    ("an EL2 table", |row| is(row, EL2) && !row.last_level()),
    ("an EL2-E2H page", |row| {
        is(row, EL2_E2H) && row.last_level()
    }),
    ("an EL2-E2H table", |row| {
        is(row, EL2_E2H) && !row.last_level()
    }),
    ("a global EL2-E2H row", |row| {
        is(row, EL2_E2H) && row.global()
    }),
    ("an EL2-E2H row with an ASID", |row| {
        is(row, EL2_E2H) && row.asid() != 0
    }),
    ("a marked row of the upper half", |row| {
        owned(row) && row.input() >= UPPER
    }),
];

const ACCEPTED: [(&str, fn(Row) -> Row); 10] = [
    ("both marks", one_mark),
    ("both marks but no ASID", |row| match row.asid() {
        0 => one_mark(row),
        _ => row,
    }),
    ("an EL2 row's VMID", |row| without(row, EL2, VMID)),
    ("an EL2-E2H row's VMID", |row| without(row, EL2_E2H, VMID)),
    ("an EL2 row's ASID", |row| without(row, EL2, ASID)),
    ("an EL2 row's global", |row| without(row, EL2, GLOBAL)),
    ("a marked STE row", |row| bare(row, Kind::Ste)),
    ("a marked CD row", |row| bare(row, Kind::Cd)),
    ("a marked stage 2 row", |row| bare(row, Kind::Stage2)),
    ("bit 13", |row| match owned(&row) {
        true => cleared(row, 1 << 13),
        false => row,
    }),
];

const OTHERS: [(&str, Fault); 9] = [
    ("run: marked rows want Hyp", Fault::WantsHyp),
    (
        "an EL2 row answers",
        Fault::Looks(|row| without(row, EL2, MARKS)),
    ),
    (
        "an EL2-E2H row answers",
        Fault::Looks(|row| without(row, EL2_E2H, MARKS)),
    ),
    (
        "a global EL2-E2H row answers",
        Fault::Looks(|row| match row.global() {
            true => without(row, EL2_E2H, MARKS),
            false => row,
        }),
    ),
    ("a marked row hides others", Fault::Hides),
    (
        "doubles: marked old rows too",
        Fault::Doubles(doubles::Fault::Rule(|new, old| new.doubles(&guest(old)))),
    ),
    (
        "doubles: marked new rows too",
        Fault::Doubles(doubles::Fault::Rule(|new, old| guest(new).doubles(old))),
    ),
    (
        "doubles: two marked rows too",
        Fault::Doubles(doubles::Fault::Rule(|new, old| {
            let same = owned(new) && new.regime() == old.regime();
            new.doubles(old) || same && guest(new).doubles(&guest(old))
        })),
    ),
    (
        "doubles: EL2 and EL2-E2H rows",
        Fault::Doubles(doubles::Fault::Rule(|new, old| {
            let both = owned(new) && owned(old) && new.regime() != old.regime();
            new.doubles(old) || both && guest(new).doubles(&guest(old))
        })),
    ),
];

const MARKS: u64 = EL2 | EL2_E2H;
const GLOBAL: u64 = 1 << 4;
const VMID: u64 = 0xFFFF << 16;
const ASID: u64 = 0xFFFF << 32;

/// Whether a row is of stage 1 and has this mark alone.
fn is(row: &Row, mark: u64) -> bool {
    row.kind() == Kind::Stage1 && row.0[0] & MARKS == mark
}

fn owned(row: &Row) -> bool {
    is(row, EL2) || is(row, EL2_E2H)
}

fn cleared(Row([word, one, two, three]): Row, bits: u64) -> Row {
    Row([word & !bits, one, two, three])
}

fn guest(row: &Row) -> Row {
    cleared(*row, MARKS)
}

/// A row with the mark, without some bits.
fn without(row: Row, mark: u64, bits: u64) -> Row {
    if is(&row, mark) {
        cleared(row, bits)
    } else {
        row
    }
}

/// EL2-E2H, if it has both.
fn one_mark(row: Row) -> Row {
    match (row.kind(), row.regime()) {
        (Kind::Stage1, None) => cleared(row, EL2),
        _ => row,
    }
}

/// A row of the kind without marks.
fn bare(row: Row, kind: Kind) -> Row {
    if row.kind() == kind && row.regime() != Some(Regime::Guest) {
        guest(&row)
    } else {
        row
    }
}

const RUN: usize = 0;
const MISS_STAGE_1: u64 = 4;

impl Fault {
    /// Makes the call as `unit::perform` does, with the fault.
    pub fn perform(self, call: Call, memory: &mut Memory, answer: &mut Lent) -> u64 {
        match (self, call) {
            (Fault::Form(form), _) => form.perform(call, memory, answer),
            (Fault::Doubles(fault), _) => fault.perform(call, memory, answer),
            (Fault::WantsHyp, Call::Run { features, .. }) if features & HYP == 0 => {
                forms::Fault::Refuses(RUN, owned).perform(call, memory, answer)
            }
            (Fault::Looks(see), Call::Translate(_)) => seen(call, memory, answer, see),
            (Fault::Hides, Call::Translate(_)) => hidden(call, memory, answer),
            (Fault::Scans(..) | Fault::Reads(_), Call::Run { .. }) => {
                one_by_one(call, memory, answer, |call, slot, memory, answer| {
                    self.command(call, slot, memory, answer)
                })
            }
            (Fault::Told(told), Call::Run { .. }) => retold(call, memory, answer, told),
            _ => unit::perform(call, memory, answer),
        }
    }

    /// The run over the only command that waits.
    fn command(self, call: Call, slot: u64, memory: &mut Memory, answer: &mut Lent) -> u64 {
        let asked = Asked::at(call, slot);
        match self {
            Fault::Scans(codes, row) if codes.contains(&asked.code()) => {
                seen(call, memory, answer, |seen| row(seen, &asked))
            }
            Fault::Reads(read) => with(call, (read(asked), slot), |call| {
                unit::perform(call, memory, answer)
            }),
            _ => unit::perform(call, memory, answer),
        }
    }
}

/// A transaction that would find another row if marked ones answered.
fn hidden(call: Call, memory: &mut Memory, answer: &mut Lent) -> u64 {
    let number = unit::perform(call, memory, answer);
    let right = answer.inner().to_vec();
    seen(call, memory, answer, |row| match owned(&row) {
        true => guest(&row),
        false => row,
    });
    let other = answer.inner() != right;
    answer.inner_mut().copy_from_slice(&right);
    if number == 0 && other {
        answer.inner_mut().fill(0);
        answer.inner_mut()[0] = MISS_STAGE_1;
    }
    number
}
