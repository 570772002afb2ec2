//! Mergings that a hurried tool might make.

use super::batch::{Batch, Pages};
use crate::generate::commands::{Command, E2H};

/// A wrong proposal, and the page by whose row it differs: of which sort, and where.
pub struct Slip {
    pub pages: Pages,
    pub proposed: Vec<Command>,
    pub at: u64,
    pub row: Sort,
}

/// A row of the page itself, of 4 KiB and last-level; or a table's above it.
#[derive(Clone, Copy, PartialEq, Eq)]
pub enum Sort {
    Page,
    Table,
}

/// A slip with its name.
type Named = (&'static str, fn(&Batch, usize, u64) -> Option<Slip>);

pub const SLIPS: [Named; 6] = [
    ("a page too many", |batch, place, _| {
        let own = batch.pages[place];
        slip(batch, place, more(own, 1), own.end(), Sort::Page)
    }),
    ("a page too few", |batch, place, _| {
        let own = batch.pages[place];
        let fewer = Pages {
            count: own.count - 1,
            ..own
        };
        slip(batch, place, fewer, own.end() - 1, Sort::Page)
    }),
    ("a page too late", |batch, place, _| {
        let own = batch.pages[place];
        let late = Pages {
            first: own.first + 1,
            count: own.count - 1,
            ..own
        };
        slip(batch, place, late, own.first, Sort::Page)
    }),
    ("another ASID, or VMID", |batch, place, features| {
        let own = batch.pages[place];
        let (low, high) = own.shared;
        let bit = match low & 0xFF {
            0x2A => 32,
            // Without E2H no ASID is looked at.
            0x22 if features & E2H == 0 => return None,
            _ => 48,
        };
        let other = Pages {
            shared: (low ^ 1 << bit, high),
            ..own
        };
        slip(batch, place, other, own.first, Sort::Page)
    }),
    ("another Leaf", |batch, place, _| {
        let own = batch.pages[place];
        let (low, high) = own.shared;
        let other = Pages {
            shared: (low, high ^ 1),
            ..own
        };
        slip(batch, place, other, own.first, Sort::Table)
    }),
    ("the last page's own command only", |batch, place, _| {
        let own = batch.pages[place];
        let last = Pages {
            first: own.end() - 1,
            count: 1,
            ..own
        };
        slip(batch, place, last, own.first, Sort::Page)
    }),
];

fn more(own: Pages, count: u64) -> Pages {
    Pages {
        count: own.count + count,
        ..own
    }
}

/// Other pages in the place of these. None where others of the batch have the page at which
/// they differ, so that it goes in any case.
fn slip(batch: &Batch, place: usize, other: Pages, at: u64, row: Sort) -> Option<Slip> {
    let own = batch.pages[place];
    let mut pages = batch.pages.clone();
    pages[place] = other;
    let near = |pages: &Pages| pages.first >> 9 <= at >> 9 && at >> 9 <= (pages.end() - 1) >> 9;
    let mut rest = (0..batch.pages.len()).filter(|&number| number != place);
    if rest.any(|number| near(&batch.pages[number])) {
        return None;
    }
    Some(Slip {
        pages: own,
        proposed: batch.proposing(&pages),
        at,
        row,
    })
}
