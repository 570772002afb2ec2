//! Wrong units that have another idea of the upper half (document 02, T-04).

use super::forms;
use super::seen::{one_by_one, seen};
use crate::call::{Call, FIRST_EVENT, NAMES};
use crate::lent::{Lent, Memory};
use crate::limits::{ADDRESS, UPPER};
use crate::model::image::place;
use crate::model::row::{Kind, Row};
use crate::model::transaction::stream_row;
use crate::unit;

/// A row as another one, by the address that is asked for.
type Seen = fn(Row, u64) -> Row;
type Changed = fn(u64) -> u64;

#[derive(Clone, Copy)]
pub enum Fault {
    /// Other rows are well formed.
    Form(forms::Fault),
    /// A fill loses the upper bits of word 2.
    Narrow,
    /// A transaction by way of one of the Configs sees rows and its address so.
    Looks(&'static [u64], Seen, Changed),
    /// The address that comes out has the upper bits of the one that went in.
    Keeps,
    /// A command of one of the codes sees rows and its address so.
    Scans(&'static [u8], Seen, Changed),
}

/// Every wrong unit with its name.
pub fn all() -> Vec<(String, Fault)> {
    let mut all = Vec::new();
    for (call, name) in NAMES[..FIRST_EVENT].iter().enumerate() {
        let fault = Fault::Form(forms::Fault::Refuses(call, upper));
        all.push((format!("{name}: an upper row refused"), fault));
        let fault = Fault::Form(forms::Fault::Takes(call, |row| lowered(row, 2, neither)));
        all.push((format!("{name}: a row of neither half accepted"), fault));
    }
    let forms = forms::all(&REFUSED, &ACCEPTED);
    all.extend(forms.map(|(name, fault)| (name, Fault::Form(fault))));
    let others = LOOKS.into_iter().chain(SCANS);
    all.extend(others.map(|(name, fault)| (name.into(), fault)));
    all
}

const REFUSED: [(&str, fn(&Row) -> bool); 5] = [
    ("an upper page", |row| upper(row) && row.last_level()),
    ("an upper table", |row| upper(row) && !row.last_level()),
    ("the first upper row", |row| {
        upper(row) && row.input() == UPPER
    }),
    ("the last upper row", |row| {
        upper(row) && row.last() == u64::MAX
    }),
    ("the last lower row", |row| {
        stage(row) && row.last() == ADDRESS - 1
    }),
];

const ACCEPTED: [(&str, fn(Row) -> Row); 7] = [
    ("an input of neither half", |row| lowered(row, 2, neither)),
    ("an input of 2^52", |row| {
        lowered(row, 2, |word| word == ADDRESS)
    }),
    ("an input before the upper half", |row| {
        let next = row.last().wrapping_add(1) == UPPER;
        if next {
            lowered(row, 2, neither)
        } else {
            row
        }
    }),
    ("an upper input at stage 2", |row| match row.kind() {
        Kind::Stage2 => lowered(row, 2, high),
        _ => row,
    }),
    ("an upper output", |row| lowered(row, 3, high)),
    ("an output of neither half", |row| lowered(row, 3, neither)),
    ("an odd upper input", |row| {
        let Row([word, one, input, output]) = row;
        if upper(&row) && row.span() < 49 {
            Row([word, one, input >> row.span() << row.span(), output])
        } else {
            row
        }
    }),
];

const LOOKS: [(&str, Fault); 11] = [
    ("52 bits looked up", Fault::Looks(&[5, 7], low_row, low)),
    ("56 bits looked up", Fault::Looks(&[5, 7], same, extended)),
    ("stage 2 looks up 52 bits", Fault::Looks(&[6], same, low)),
    (
        "an upper row answers nothing",
        Fault::Looks(&[5, 7], |row, _| without(row, upper(&row)), kept),
    ),
    (
        "the last upper row answers nothing",
        Fault::Looks(&[5, 7], |row, _| without(row, ends(&row)), kept),
    ),
    (
        "the first byte of an upper row not covered",
        Fault::Looks(
            &[5, 7],
            |row, address| without(row, upper(&row) && row.input() == address),
            kept,
        ),
    ),
    (
        "the last byte of an upper row not covered",
        Fault::Looks(
            &[5, 7],
            |row, address| without(row, upper(&row) && row.last() == address),
            kept,
        ),
    ),
    (
        "an upper row answers every ASID",
        Fault::Looks(&[5, 7], |row, _| made_global(row), kept),
    ),
    (
        "an upper address past the row",
        Fault::Looks(&[5, 7], past_it, kept),
    ),
    ("the upper bits come out again", Fault::Keeps),
    ("fill: word 2 of 52 bits", Fault::Narrow),
];

const SCANS: [(&str, Fault); 16] = [
    ("12 compares 52 bits", Fault::Scans(&[0x12], low_row, low)),
    ("13 compares 52 bits", Fault::Scans(&[0x13], low_row, low)),
    ("12 compares 56 bits", Fault::Scans(&[0x12], same, extended)),
    ("13 compares 56 bits", Fault::Scans(&[0x13], same, extended)),
    ("12 spares upper rows", Fault::Scans(&[0x12], spared, kept)),
    ("13 spares upper rows", Fault::Scans(&[0x13], spared, kept)),
    ("10 spares upper rows", Fault::Scans(&[0x10], spared, kept)),
    ("11 spares upper rows", Fault::Scans(&[0x11], spared, kept)),
    ("28 spares upper rows", Fault::Scans(&[0x28], spared, kept)),
    ("30 spares upper rows", Fault::Scans(&[0x30], spared, kept)),
    (
        "12 and 13 spare upper tables",
        Fault::Scans(
            &[0x12, 0x13],
            |row, _| without(row, upper(&row) && !row.last_level()),
            kept,
        ),
    ),
    (
        "12 and 13 spare the last upper row",
        Fault::Scans(&[0x12, 0x13], |row, _| without(row, ends(&row)), kept),
    ),
    (
        "12 and 13 spare the last page of an upper row",
        Fault::Scans(
            &[0x12, 0x13],
            |row, page| without(row, upper(&row) && row.last() >> 12 == page >> 12),
            kept,
        ),
    ),
    (
        "12 takes upper rows of every ASID",
        Fault::Scans(&[0x12], |row, _| made_global(row), kept),
    ),
    (
        "2A takes upper rows",
        Fault::Scans(&[0x2A], |row, _| as_stage2(row), kept),
    ),
    ("2A drops bits 63:52", Fault::Scans(&[0x2A], same, low)),
];

fn stage(row: &Row) -> bool {
    matches!(row.kind(), Kind::Stage1 | Kind::Stage2)
}

fn upper(row: &Row) -> bool {
    row.kind() == Kind::Stage1 && high(row.input())
}

fn high(address: u64) -> bool {
    address >= UPPER
}

fn neither(address: u64) -> bool {
    (ADDRESS..UPPER).contains(&address)
}

/// Whether one past the row is 2^64, which wraps to 0.
fn ends(row: &Row) -> bool {
    upper(row) && row.last() == u64::MAX
}

fn low(address: u64) -> u64 {
    address % ADDRESS
}

fn kept(address: u64) -> u64 {
    address
}

/// Bits 63:56 as bit 55 is.
fn extended(address: u64) -> u64 {
    ((address << 8) as i64 >> 8) as u64
}

fn same(row: Row, _: u64) -> Row {
    row
}

/// The row with one of its addresses brought below 2^52.
fn lowered(row: Row, word: usize, which: fn(u64) -> bool) -> Row {
    let mut row = row;
    if stage(&row) && which(row.0[word]) {
        row.0[word] %= ADDRESS;
    }
    row
}

fn low_row(row: Row, _: u64) -> Row {
    lowered(row, 2, high)
}

/// An empty row instead, if so.
fn without(row: Row, hidden: bool) -> Row {
    let Row([_, one, two, three]) = row;
    if hidden {
        Row([0, one, two, three])
    } else {
        row
    }
}

fn spared(row: Row, _: u64) -> Row {
    without(row, upper(&row))
}

fn made_global(row: Row) -> Row {
    let mut row = row;
    row.0[0] |= u64::from(upper(&row)) << 4;
    row
}

/// A row that covers the address next to it, if it is an upper one.
fn past_it(row: Row, address: u64) -> Row {
    let mut row = row;
    if upper(&row) && row.last_level() && row.last().wrapping_add(1) == address {
        row.0[2] = address % ADDRESS | UPPER;
    }
    row
}

/// An upper row as one of stage 2 at the same place of the lower half.
fn as_stage2(row: Row) -> Row {
    let Row([word, _, input, output]) = row;
    if upper(&row) {
        let stage2 = word & !(0x3F << 54) & !(0xFFFF << 32) & !(1 << 4) | 1 << 1;
        Row([stage2, 0, low(input), output])
    } else {
        row
    }
}

impl Fault {
    /// Makes the call as `unit::perform` does, with the fault.
    pub fn perform(self, call: Call, memory: &mut Memory, answer: &mut Lent) -> u64 {
        match (self, call) {
            (Fault::Form(form), _) => form.perform(call, memory, answer),
            (Fault::Looks(configs, row, address), Call::Translate(mut asked)) => {
                let ste = stream_row(memory.inner(), asked.stream.into());
                if ste.is_some_and(|ste| configs.contains(&ste.config())) {
                    let whole = asked.address;
                    asked.address = address(whole);
                    let see = |seen| row(seen, whole);
                    return seen(Call::Translate(asked), memory, answer, see);
                }
                unit::perform(call, memory, answer)
            }
            (Fault::Scans(codes, row, address), Call::Run { .. }) => {
                let scan = (codes, row, address);
                one_by_one(call, memory, answer, |call, slot, memory, answer| {
                    command(call, slot, memory, answer, scan)
                })
            }
            _ => {
                let number = unit::perform(call, memory, answer);
                self.spoil(call, number, memory, answer.inner_mut());
                number
            }
        }
    }

    /// What comes back, once the unit was called.
    fn spoil(self, call: Call, number: u64, memory: &mut Memory, answer: &mut [u64]) {
        match (self, call, number) {
            (Fault::Narrow, Call::Fill { row, .. }, 0) if answer[1] >= 2 => {
                memory.inner_mut()[place(row as usize) + 2] %= ADDRESS;
            }
            (Fault::Keeps, Call::Translate(asked), 0) if answer[0] == 0 => {
                answer[1] |= asked.address & UPPER;
            }
            _ => (),
        }
    }
}

/// Codes, and how commands of theirs see rows and their address.
type Scan = (&'static [u8], Seen, Changed);

/// The run over the only command that waits, by its own way of seeing.
fn command(
    call: Call,
    slot: u64,
    memory: &mut Memory,
    answer: &mut Lent,
    (codes, row, address): Scan,
) -> u64 {
    let Call::Run { queue, .. } = call else {
        return unit::perform(call, memory, answer);
    };
    let start = 16 * slot as usize;
    if !codes.contains(&queue[start]) {
        return unit::perform(call, memory, answer);
    }
    let mut queue = queue.to_vec();
    let bytes = &mut queue[start + 8..start + 16];
    let high = bytes
        .iter()
        .rev()
        .fold(0, |word, &byte| word << 8 | u64::from(byte));
    let page = high >> 12 << 12;
    bytes.copy_from_slice(&(address(page) | high % 0x1000).to_le_bytes());
    let numbers = call.numbers();
    let call = Call::Run {
        queue: &queue,
        features: numbers[0],
        allowance: numbers[1],
    };
    seen(call, memory, answer, |seen| row(seen, page))
}
