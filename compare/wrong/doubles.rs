//! Wrong units that refuse other fills with 11 (document 02, T-02).

use crate::call::Call;
use crate::lent::{Lent, Memory};
use crate::limits::ADDRESS;
use crate::model::image::{place, rows};
use crate::model::row::{Kind, Row};
use crate::unit;

/// Whether a new row doubles an old one.
type Rule = fn(&Row, &Row) -> bool;

#[derive(Clone, Copy)]
pub enum Fault {
    /// By another rule.
    Rule(Rule),
    /// Only some rows are looked at: by their number, the filled one's, and how
    /// many there are.
    Looked(fn(usize, usize, usize) -> bool),
    /// 11 is given where this refusal is due before it.
    Before(u64),
    /// An allowance that cuts the fill leaves no time for 11.
    Late,
    /// With 11 comes the row that would be doubled.
    Named,
    /// Words 1, 2 and 3 are stored all the same.
    Stored,
}

/// Every wrong unit with its name.
pub fn all() -> Vec<(String, Fault)> {
    let rules = RULES.map(|(name, rule)| (name.into(), Fault::Rule(rule)));
    let mut all: Vec<(String, Fault)> = rules.into();
    all.extend(OTHERS.map(|(name, fault)| (name.into(), fault)));
    for number in [1, 2, 3, 7, 8, 9] {
        all.push((format!("11 before {number}"), Fault::Before(number)));
    }
    all
}

const OTHERS: [(&str, Fault); 8] = [
    (
        "doubles: only the lowest row",
        Fault::Looked(|row, _, _| row == 0),
    ),
    (
        "doubles: not the last row",
        Fault::Looked(|row, _, count| row + 1 < count),
    ),
    (
        "doubles: only rows below",
        Fault::Looked(|row, filled, _| row < filled),
    ),
    (
        "doubles: only rows above",
        Fault::Looked(|row, filled, _| row > filled),
    ),
    ("doubles: 128 rows", Fault::Looked(|row, _, _| row < 128)),
    ("doubles: not if it is cut", Fault::Late),
    ("doubles: the row is named", Fault::Named),
    ("doubles: refused and stored", Fault::Stored),
];

const RULES: [(&str, Rule); 38] = [
    ("doubles: never", |_, _| false),
    ("doubles: always", |_, _| true),
    ("doubles: any row in use", |_, old| old.used()),
    ("doubles: the new row with itself", |new, _| {
        new.doubles(new)
    }),
    ("doubles: old tables too", |new, old| {
        new.doubles(&leaf(old))
    }),
    ("doubles: new tables too", |new, old| leaf(new).doubles(old)),
    ("doubles: what a cut fill left", |new, old| {
        let Row([word, ..]) = *new;
        let [_, one, two, three] = old.0;
        let left = !old.used() && [one, two, three] != [0; 3];
        new.doubles(old) || left && new.doubles(&Row([word, one, two, three]))
    }),
    ("doubles: STE never", |new, old| {
        new.kind() != Kind::Ste && new.doubles(old)
    }),
    ("doubles: CD never", |new, old| {
        new.kind() != Kind::Cd && new.doubles(old)
    }),
    ("doubles: stage 1 never", |new, old| {
        new.kind() != Kind::Stage1 && new.doubles(old)
    }),
    ("doubles: stage 2 never", |new, old| {
        new.kind() != Kind::Stage2 && new.doubles(old)
    }),
    ("doubles: STE and CD of a stream", |new, old| {
        new.doubles(old) || streams(new, old) && new.doubles(&with(old, 0, KIND, new))
    }),
    ("doubles: stages taken for one", |new, old| {
        new.doubles(old) || pages(new, old) && new.doubles(&with(old, 0, KIND, new))
    }),
    ("doubles: STE by VMID too", |new, old| {
        new.doubles(old) && (new.kind() != Kind::Ste || new.vmid() == old.vmid())
    }),
    ("doubles: STE by Config too", |new, old| {
        new.doubles(old) && (new.kind() != Kind::Ste || new.0[1] == old.0[1])
    }),
    ("doubles: CD by ASID too", |new, old| {
        new.doubles(old) && (new.kind() != Kind::Cd || new.asid() == old.asid())
    }),
    ("doubles: substream not compared", |new, old| {
        new.doubles(&with(old, 1, SUBSTREAM, new))
    }),
    ("doubles: stream of 31 bits", |new, old| {
        new.doubles(&with(old, 1, 1 << 31, new))
    }),
    ("doubles: substream of 19 bits", |new, old| {
        new.doubles(&with(old, 1, 1 << 51, new))
    }),
    ("doubles: VMID of 15 bits", |new, old| {
        new.doubles(&with(old, 0, 1 << 31, new))
    }),
    ("doubles: ASID of 15 bits", |new, old| {
        new.doubles(&with(old, 0, 1 << 47, new))
    }),
    ("doubles: VMID not compared", |new, old| {
        new.doubles(&with(old, 0, VMID, new))
    }),
    ("doubles: ASID not compared", |new, old| {
        new.doubles(&with(old, 0, ASID, new))
    }),
    ("doubles: ASID of a global new row", |new, old| {
        with(new, 0, GLOBAL, old).doubles(old)
    }),
    ("doubles: ASID of a global old row", |new, old| {
        new.doubles(&with(old, 0, GLOBAL, new))
    }),
    ("doubles: ASID of global rows", |new, old| {
        new.doubles(old) && (new.kind() != Kind::Stage1 || new.asid() == old.asid())
    }),
    ("doubles: ASID unless both are global", |new, old| {
        let both = new.global() && old.global();
        let stage1 = new.kind() == Kind::Stage1;
        new.doubles(old) && (!stage1 || both || new.asid() == old.asid())
    }),
    ("doubles: global rows of any VMID", |new, old| {
        let global = new.global() || old.global();
        new.doubles(old) || global && new.doubles(&with(old, 0, VMID, new))
    }),
    ("doubles: equal inputs", |new, old| {
        new.doubles(old) && new.input() == old.input()
    }),
    ("doubles: equal spans", |new, old| {
        new.doubles(old) && new.span() == old.span()
    }),
    ("doubles: not within the old row", |new, old| {
        new.doubles(old) && !(pages(new, old) && new.span() < old.span())
    }),
    ("doubles: not around the old row", |new, old| {
        new.doubles(old) && !(pages(new, old) && new.span() > old.span())
    }),
    ("doubles: the new row's span for both", |new, old| {
        let at = |row: &Row| row.input() >> new.span();
        new.doubles(old) && at(new) == at(old)
    }),
    ("doubles: spans that touch", |new, old| {
        new.doubles(old) || touch(new, old) && new.doubles(&with(old, 2, u64::MAX, new))
    }),
    ("doubles: across 2^64", |new, old| {
        let over = [new.last(), old.last()].contains(&u64::MAX) && touch(new, old);
        new.doubles(old) || over && new.doubles(&with(old, 2, u64::MAX, new))
    }),
    ("doubles: no row that ends at 2^64", |new, old| {
        let ends = |row: &Row| row.last() == u64::MAX;
        new.doubles(old) && !(pages(new, old) && (ends(new) || ends(old)))
    }),
    ("doubles: 52 bits compared", |new, old| {
        low(new).doubles(&low(old))
    }),
    ("doubles: signed addresses", |new, old| {
        let (one, other) = (new.input() as i64, old.input() as i64);
        new.doubles(old) && !(pages(new, old) && one.min(other) < 0)
    }),
];

const KIND: u64 = 0b110;
const GLOBAL: u64 = 1 << 4;
const VMID: u64 = 0xFFFF << 16;
const ASID: u64 = 0xFFFF << 32;
const SUBSTREAM: u64 = 0xF_FFFF << 32;

/// The row with bits of a word from another one, if it is in use.
fn with(row: &Row, word: usize, bits: u64, from: &Row) -> Row {
    let mut changed = *row;
    if row.used() {
        changed.0[word] = row.0[word] & !bits | from.0[word] & bits;
    }
    changed
}

fn leaf(row: &Row) -> Row {
    with(row, 0, 1 << 3, &Row([1 << 3, 0, 0, 0]))
}

fn low(row: &Row) -> Row {
    let Row([word, one, input, output]) = *row;
    Row([word, one, input % ADDRESS, output])
}

fn streams(new: &Row, old: &Row) -> bool {
    let of = |row: &Row| row.used() && matches!(row.kind(), Kind::Ste | Kind::Cd);
    of(new) && of(old)
}

fn pages(new: &Row, old: &Row) -> bool {
    let of = |row: &Row| row.used() && matches!(row.kind(), Kind::Stage1 | Kind::Stage2);
    of(new) && of(old)
}

fn touch(new: &Row, old: &Row) -> bool {
    let next = |row: &Row| row.last().wrapping_add(1);
    pages(new, old) && (next(new) == old.input() || next(old) == new.input())
}

/// A fill: the number of its row, and the rest of what it is passed.
type Fill = (usize, [u64; 4], u64);

impl Fault {
    /// Makes the call as `unit::perform` does, with the fault.
    pub fn perform(self, call: Call, memory: &mut Memory, answer: &mut Lent) -> u64 {
        let before = memory.inner().to_vec();
        let number = unit::perform(call, memory, answer);
        let Call::Fill {
            row,
            words,
            allowance,
        } = call
        else {
            return number;
        };
        let fill = (row as usize, words, allowance);
        match (self.doubled(&before, fill, number), number) {
            (Some(true), 0..=10) => {
                memory.inner_mut().copy_from_slice(&before);
                answer.inner_mut().fill(0);
                11
            }
            (Some(false), 11) => filled(fill, memory, answer),
            (None, 11) => self.spoil(&before, fill, memory, answer.inner_mut()),
            _ => number,
        }
    }

    /// Whether the fill is refused with 11, if this fault has an idea of its own.
    fn doubled(self, before: &[u64], (row, words, allowance): Fill, number: u64) -> Option<bool> {
        let new = Row(words);
        let count = rows(before).count();
        let any = |looked: &dyn Fn(usize) -> bool, rule: Rule| {
            let mut old = rows(before).enumerate();
            old.any(|(place, old)| looked(place) && rule(&new, &old))
        };
        let reached = number == 0 || number == 11;
        match self {
            Fault::Rule(rule) if reached => Some(any(&|_| true, rule)),
            Fault::Looked(looked) if reached => {
                Some(any(&|place| looked(place, row, count), Row::doubles))
            }
            Fault::Before(of) if number == of => Some(any(&|_| true, Row::doubles)),
            Fault::Late if number == 11 => Some(allowance >= 4),
            _ => None,
        }
    }

    /// More than the number comes of refusal 11.
    fn spoil(
        self,
        before: &[u64],
        (row, words, _): Fill,
        memory: &mut Memory,
        answer: &mut [u64],
    ) -> u64 {
        let old = rows(before).position(|old| Row(words).doubles(&old));
        match self {
            Fault::Named => answer[0] = old.map_or(0, |old| old as u64),
            Fault::Stored => memory.inner_mut()[place(row) + 1..][..3].copy_from_slice(&words[1..]),
            _ => (),
        }
        11
    }
}

/// The fill as it is without a refusal.
fn filled((row, words, allowance): Fill, memory: &mut Memory, answer: &mut Lent) -> u64 {
    let stores = allowance.min(4);
    for word in [1, 2, 3, 0].into_iter().take(stores as usize) {
        memory.inner_mut()[place(row) + word] = words[word];
    }
    answer.inner_mut()[..2].copy_from_slice(&[u64::from(stores < 4), stores]);
    0
}
