//! What became of addresses in the upper half and next to it (document 02, T-04).

use super::Table;
use crate::answers::transaction;
use crate::call::{Asked, Call, Reply, CUT};
use crate::limits::{ADDRESS, SPANS, UPPER};
use crate::model::control::Control;
use crate::model::image::{place, rows};
use crate::model::row::{Kind, Row};
use crate::model::transaction::{stage1_row, stream_row};
use crate::model::words::part;

/// Where a row has an address that isn't below 2^52.
const FORMS: [&str; 6] = [
    "stage 1",
    "stage 1 table",
    "stage 2",
    "stage 2 table",
    "output of 1",
    "output of 2",
];
/// It is in the upper half, in neither, or in the upper but no multiple of 2^span;
/// the row is accepted as one of a memory or filled in, or refused for it.
const FATES: [&str; 8] = [
    "image",
    "filled",
    "no 3",
    "no 9",
    "neither 3",
    "neither 9",
    "odd 3",
    "odd 9",
];

/// Where a stage 1 row begins or ends.
const PLACES: [&str; 6] = [
    "from 0",
    "to 2^52",
    "from -2^52",
    "to 2^64",
    "lower",
    "upper",
];
/// Removed by 12 and 13 with its level, spared by 2A, answering; at its first and
/// last byte; and asked for just outside of it, in vain.
const USES: [&str; 9] = [
    "12 last",
    "12 table",
    "13 last",
    "13 table",
    "2A spares",
    "answers",
    "first",
    "last",
    "outside",
];

#[derive(Default)]
pub struct Upper {
    forms: [[u64; FATES.len()]; FORMS.len()],
    uses: [[u64; USES.len()]; PLACES.len()],
}

impl Upper {
    /// A call with the memory before it and after.
    pub fn count(&mut self, before: &[u64], call: &Call, reply: &Reply, after: &[u64]) {
        match (call, reply.number) {
            (_, 3) => self.refused(rows(before).nth(reply.answer[0] as usize), 0),
            (Call::Fill { words, .. }, 9) => self.refused(Some(Row(*words)), 1),
            (Call::Fill { words, .. }, 0) => self.accepted(Row(*words), 1),
            (Call::State, 0) => rows(before).for_each(|row| self.accepted(row, 0)),
            (Call::Run { queue, .. }, 0) if alone(reply) => self.ran(before, queue, after),
            (Call::Translate(asked), 0) => self.asked(before, *asked, reply.answer[0]),
            _ => (),
        }
    }

    fn accepted(&mut self, row: Row, column: usize) {
        if let Some((form, address)) = row.used().then(|| form(&row)).flatten() {
            self.forms[form][column] += u64::from(address >= UPPER);
        }
    }

    /// A row that is refused, with 3 or with 9, and wouldn't be with the address
    /// elsewhere.
    fn refused(&mut self, row: Option<Row>, by: usize) {
        let found = row.and_then(|row| Some((row, form(&row)?)));
        let Some((Row(words), (form, address))) = found else {
            return;
        };
        let word = if form < 4 { 2 } else { 3 };
        let instead = |address| {
            let mut words = words;
            words[word] = address;
            Row(words).sound()
        };
        match (instead(address % ADDRESS), instead(0)) {
            (true, _) if address >= UPPER => self.forms[form][2 + by] += 1,
            (true, _) => self.forms[form][4 + by] += 1,
            (_, true) if address >= UPPER => self.forms[form][6 + by] += 1,
            _ => (),
        }
    }

    /// A run over one command.
    fn ran(&mut self, before: &[u64], queue: &[u8], after: &[u64]) {
        let slot = 16 * Control::fields(before[0]).slot() as usize;
        let word = |from: usize| u64::from_le_bytes(queue[from..from + 8].try_into().unwrap());
        let (low, high) = (word(slot), word(slot + 8));
        for (number, row) in rows(before).enumerate() {
            if !row.used() || row.kind() != Kind::Stage1 {
                continue;
            }
            let gone = after[place(number)] == 0;
            let table = usize::from(!row.last_level());
            let counterpart = (high ^ row.input()) % ADDRESS >> row.span() == 0;
            let met = counterpart && row.vmid() == part(low, 47, 32);
            match low as u8 {
                0x12 if gone => self.used(&row, table),
                0x13 if gone => self.used(&row, 2 + table),
                0x2A if met && !gone => self.used(&row, 4),
                _ => (),
            }
        }
    }

    fn asked(&mut self, kept: &[u64], asked: Asked, outcome: u64) {
        if outcome == 4 {
            let next = |row: &Row| {
                let (first, last) = (row.input(), row.last());
                asked.address.wrapping_add(1) == first || asked.address == last.wrapping_add(1)
            };
            let stage1 = |row: &Row| row.used() && row.kind() == Kind::Stage1 && row.last_level();
            rows(kept)
                .filter(|row| stage1(row) && next(row))
                .for_each(|row| self.used(&row, 8));
        }
        let ste = stream_row(kept, asked.stream.into());
        let Some(ste) = ste.filter(|ste| outcome == 0 && matches!(ste.config(), 5 | 7)) else {
            return;
        };
        if let Ok(row) = stage1_row(kept, &ste, &transaction(asked)) {
            self.used(&row, 5);
            if asked.address == row.input() {
                self.used(&row, 6);
            }
            if asked.address == row.last() {
                self.used(&row, 7);
            }
        }
    }

    fn used(&mut self, row: &Row, column: usize) {
        let place = match (row.input(), row.last()) {
            (0, _) => 0,
            (_, last) if last == ADDRESS - 1 => 1,
            (UPPER, _) => 2,
            (_, u64::MAX) => 3,
            (input, _) => 4 + usize::from(input >= UPPER),
        };
        self.uses[place][column] += 1;
    }

    pub(super) fn print(&self, table: &mut Table) {
        let heads = |title: &str, heads: &[&str]| {
            print!("\n  {title:<14}");
            heads.iter().for_each(|head| print!("{head:>10}"));
            println!();
        };
        heads("Upper half", &FATES);
        for (form, counts) in self.forms.iter().enumerate() {
            print!("  {:<14}", FORMS[form]);
            for (fate, &count) in counts.iter().enumerate() {
                print!(" {}", table.cell(count, possible(form, fate)));
            }
            println!();
        }
        heads("Stage 1 rows", &USES);
        for (place, counts) in PLACES.iter().zip(&self.uses) {
            print!("  {place:<14}");
            counts
                .iter()
                .for_each(|&count| print!(" {}", table.cell(count, true)));
            println!();
        }
    }
}

/// Whether a run consumed one command and began no other.
fn alone(reply: &Reply) -> bool {
    reply.answer[0] != CUT && reply.answer[1] == 1
}

/// Upper inputs are for stage 1, and are refused there only if they are odd.
fn possible(form: usize, fate: usize) -> bool {
    match fate {
        0 | 1 => form < 2,
        2 | 3 => form >= 2,
        _ => true,
    }
}

/// The place of an address of 2^52 or above in a stage row, and that address.
fn form(row: &Row) -> Option<(usize, u64)> {
    let second = match row.kind() {
        Kind::Stage1 => 0,
        Kind::Stage2 => 1,
        _ => return None,
    };
    if !SPANS.contains(&row.span()) {
        return None;
    }
    let table = usize::from(!row.last_level());
    let input = (2 * second + table, row.input());
    let output = (4 + second, row.output());
    [input, output]
        .into_iter()
        .find(|(_, address)| *address >= ADDRESS)
}
