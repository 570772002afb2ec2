//! What is measured: full tables and full queues, of two sizes.

mod batches;
mod chains;
mod linux;
mod mixed;
mod pages;
mod regions;

use crate::call::Asked;
use crate::limits;
use crate::model::run::End;
use crate::random::Random;
use crate::rows::Words;

/// Low and high word.
pub type Command = (u64, u64);

/// Rows of a full table, and LOG2SIZE of a full queue.
#[derive(Clone, Copy)]
pub struct Size {
    pub rows: usize,
    pub log2size: u64,
}

/// The limits of document 01: the size of the cases of earlier figures, so that
/// these can be compared.
const USUAL: Size = Size {
    rows: 128,
    log2size: 8,
};
/// The limits as they are. What is measured at both shows what growth costs.
const LARGEST: Size = Size {
    rows: limits::ROWS as usize,
    log2size: limits::LOG2SIZE,
};

impl Size {
    pub fn commands(self) -> usize {
        1 << self.log2size
    }

    /// RD 0, WR at a full queue, without CMDQEN.
    fn full_off(self) -> u64 {
        (self.commands() as u64) << 20 | self.log2size << 50
    }
}

/// S1P, S2P, ASID16, VMID16: all but Hyp, RIL and DPT.
pub const GUEST_FEATURES: u64 = 15;
/// For commands with a range.
pub const RIL: u64 = 1 << 5;
/// For commands about the second table.
pub const DPT: u64 = 1 << 6;
/// CMDQEN.
pub const ENABLED: u64 = 1 << 49;

/// MemAttr 15 (WB both), SH 3; for stage 1 also hints RA and WA in both halves.
pub const STAGE2_PAYLOAD: u64 = 15 | 3 << 4;
pub const STAGE1_PAYLOAD: u64 = STAGE2_PAYLOAD | 0o33 << 6;
/// SHCFG 1: the incoming shareability.
pub const STE_PAYLOAD: u64 = 1 << 5;

/// What a figure is about.
#[derive(Clone, Copy, PartialEq, Eq)]
pub enum Per {
    Command,
    Call,
}

pub enum Work {
    /// One run for each queue.
    Runs {
        queues: Vec<Vec<u8>>,
        features: u64,
    },
    /// An original and what is proposed for it.
    Check {
        batches: [Vec<u8>; 2],
        features: u64,
    },
    Translate(Asked),
    /// The row, and the words that it gets.
    Fill(u64, Words),
}

/// What a call may store to: the kept memory, and the second table, of one empty row
/// where no case is about it.
#[derive(Clone, PartialEq, Eq)]
pub struct Lent {
    pub kept: Vec<u64>,
    pub table: Vec<u64>,
}

impl Lent {
    fn without_regions(kept: Vec<u64>) -> Lent {
        let table = vec![0; 2];
        Lent { kept, table }
    }

    /// Takes over what another one of the same size has.
    pub fn restore(&mut self, other: &Lent) {
        self.kept.copy_from_slice(&other.kept);
        self.table.copy_from_slice(&other.table);
    }
}

pub struct Case {
    pub letter: &'static str,
    pub what: &'static str,
    pub size: Size,
    pub lent: Lent,
    pub work: Work,
    pub per: Per,
    /// The first word of each call's answer.
    pub end: u64,
    /// Rows removed, where the case is made for a number of them.
    pub removes: Option<u64>,
}

impl Case {
    /// A run over a full queue of commands that all get consumed.
    fn full(
        letter: &'static str,
        what: &'static str,
        size: Size,
        rows: &[Words],
        commands: &[Command],
    ) -> Case {
        Case {
            letter,
            what,
            size,
            lent: Lent::without_regions(memory(size, ENABLED, rows)),
            work: Work::Runs {
                queues: vec![bytes(size, commands)],
                features: GUEST_FEATURES,
            },
            per: Per::Command,
            end: End::Empty as u64,
            removes: Some(0),
        }
    }

    pub fn calls(&self) -> usize {
        match &self.work {
            Work::Runs { queues, .. } => queues.len(),
            Work::Check { .. } | Work::Translate(_) | Work::Fill(..) => 1,
        }
    }

    /// How many of what a figure is about the calls make.
    pub fn parts(&self) -> u64 {
        let each = match (self.per, &self.work) {
            (Per::Command, Work::Check { .. }) => 2 * self.size.commands(),
            (Per::Command, _) => self.size.commands(),
            (Per::Call, _) => 1,
        };
        (each * self.calls()) as u64
    }

    /// The call that is counted.
    pub fn call(&self) -> &'static str {
        match self.work {
            Work::Runs { .. } => "run",
            Work::Check { .. } => "check_batch",
            Work::Translate(_) => "translate",
            Work::Fill(..) => "fill",
        }
    }

    pub fn per(&self) -> &'static str {
        match self.per {
            Per::Command => "command",
            Per::Call => "call",
        }
    }
}

pub fn all() -> Vec<Case> {
    let mut cases = runs();
    cases.extend(others());
    cases
}

/// Runs over full queues.
fn runs() -> Vec<Case> {
    let ril = linux::WITH_RANGES;
    let single = linux::WITHOUT_RANGES;
    vec![
        mixed::case("a", "mixed commands, every second removes a row", USUAL),
        mixed::case("g", "as a at the limits, every fourth does", LARGEST),
        pages::by_address("b", "commands by address, none removes a row", USUAL),
        pages::by_address("h", "as b at the limits", LARGEST),
        pages::by_range("j", "as b, each command with a range of 16 pages", USUAL),
        pages::by_range("q", "as j at the limits", LARGEST),
        linux::case("d", "a Linux guest's commands", USUAL, single),
        linux::case("r", "as d at the limits", LARGEST, single),
        linux::case("k", "a Linux guest's commands, with ranges", USUAL, ril),
        linux::case("s", "as k at the limits", LARGEST, ril),
        pages::without_scope("c", "commands without a scope", USUAL),
        pages::without_scope("p", "as c at the limits", LARGEST),
        regions::full("m", "as b, beside a full second table", by_address(USUAL)),
        regions::about(
            "y",
            "commands by region, none removes one",
            by_address(USUAL),
        ),
    ]
}

fn by_address(size: Size) -> Case {
    pages::by_address("", "", size)
}

/// The check of the image, and calls that carry out no commands.
fn others() -> Vec<Case> {
    let check = "the check of the image alone (a run that ends Off)";
    let off = chains::check("", "", USUAL);
    let mixed = |size| mixed::case("", "", size);
    vec![
        chains::check("e", check, USUAL),
        chains::check("t", "as e at the limits", LARGEST),
        regions::full("l", "as e, beside a full second table", off),
        chains::transaction("f", "a transaction of both stages, its rows last", USUAL),
        chains::transaction("u", "as f at the limits", LARGEST),
        pages::fill("v", "a fill of a page that no row doubles", USUAL),
        pages::fill("i", "as v at the limits", LARGEST),
        batches::check("w", "a check of b's commands, reordered", by_address(USUAL)),
        batches::check(
            "n",
            "a check of h's commands, reordered",
            by_address(LARGEST),
        ),
        batches::check("x", "a check of a's commands, reordered", mixed(USUAL)),
        batches::check("o", "a check of g's commands, reordered", mixed(LARGEST)),
    ]
}

/// The control word of a full queue, with flags, before the rows, which have to
/// fill the table.
fn memory(size: Size, flags: u64, rows: &[Words]) -> Vec<u64> {
    assert_eq!(rows.len(), size.rows);
    let words = rows.iter().flatten().copied();
    std::iter::once(size.full_off() | flags)
        .chain(words)
        .collect()
}

fn bytes(size: Size, commands: &[Command]) -> Vec<u8> {
    assert_eq!(commands.len(), size.commands());
    let words = commands.iter().flat_map(|&(low, high)| [low, high]);
    words.flat_map(u64::to_le_bytes).collect()
}

/// Rows and commands stand in no order that a processor could guess.
fn shuffle<T>(seed: u64, items: &mut [T]) {
    let mut random = Random::new(seed);
    for place in (1..items.len()).rev() {
        items.swap(place, random.below(place as u64 + 1) as usize);
    }
}
