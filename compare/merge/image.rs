//! Images with rows for the pages of a batch, and some beside them.

use super::batch::{Batch, Pages};
use super::slips::{Slip, Sort};
use crate::generate::commands::{Command, E2H};
use crate::generate::images::with_rows;
use crate::generate::rows::{
    cd, cd_table, marked, ste, Reach, Words, EL2, EL2_E2H, STAGE1, STAGE2,
};
use crate::limits::ROWS;
use crate::model::control::Control;

pub struct Image {
    pub kept: Vec<u64>,
    /// The row by which a wrong merging differs.
    pub named: u64,
}

const PAGE: u64 = 12;
const TABLE: u64 = 21;
/// MemAttr 15: WB in both halves.
const PAYLOAD: u64 = 15;

/// The pages of one run that get rows: those at the ends of each of its ranges, some
/// between, and those beside the run.
fn places(pages: &Pages) -> Vec<u64> {
    let mut places = vec![pages.first.wrapping_sub(1), pages.end()];
    places.extend((0..pages.count.min(8)).map(|number| pages.first + number));
    places.extend((1..8).map(|part| pages.first + pages.count * part / 8));
    for (low, high) in pages.ranges() {
        let count = ((low >> 12 & 31) + 1) << (low >> 20 & 31);
        places.extend([high >> 12, (high >> 12) + count - 1]);
    }
    places.sort();
    places.dedup();
    // What is before address 0 or behind the end of a half has no row.
    places.retain(|place| place >> 40 == pages.first >> 40);
    places
}

/// How a row is found that the commands of these pages are after.
fn reach(pages: &Pages, page: u64, span: u64) -> Reach {
    let (low, _) = pages.shared;
    let kind = if low & 0xFF == 0x2A { STAGE2 } else { STAGE1 };
    Reach {
        kind,
        vmid: low >> 32 & 0xFFFF,
        asid: low >> 48,
        global: false,
        span,
        page: page << 12,
    }
}

/// With the hypervisor's mark, if the commands are about its rows.
fn own(pages: &Pages, row: Words, features: u64) -> Words {
    match (pages.shared.0 & 0xFF, features & E2H) {
        (0x22, 0) => marked(row, EL2),
        (0x22, _) => marked(row, EL2_E2H),
        _ => row,
    }
}

fn page(pages: &Pages, page: u64, features: u64) -> Words {
    own(
        pages,
        reach(pages, page, PAGE).page(page << 12, PAYLOAD),
        features,
    )
}

fn table(pages: &Pages, page: u64, features: u64) -> Words {
    own(pages, reach(pages, page, TABLE).table(), features)
}

/// The rows for one run of pages: its pages, a table's and a block's around it, and such as
/// have another ASID, are global, or have another VMID.
fn rows(pages: &Pages, features: u64) -> Vec<Words> {
    let mut rows: Vec<Words> = places(pages)
        .into_iter()
        .map(|place| page(pages, place, features))
        .collect();
    let (first, last) = (pages.first, pages.end() - 1);
    let other = |bit: u32| Pages {
        shared: (pages.shared.0 ^ 1 << bit, pages.shared.1),
        ..*pages
    };
    rows.push(table(pages, first, features));
    rows.push(table(pages, last, features));
    let block = reach(pages, last, TABLE).page(0, PAYLOAD);
    rows.push(own(pages, block, features));
    rows.push(page(&other(48), first, features));
    rows.push(page(&other(33), last, features));
    let global = Reach {
        global: true,
        ..reach(&other(48), last, PAGE)
    };
    rows.push(own(pages, global.page(0, PAYLOAD), features));
    rows
}

/// The rows of a command for a stream.
fn of_stream((low, _): Command) -> Vec<Words> {
    let stream = low >> 32;
    match low as u8 {
        0x03..=0x06 => vec![ste(stream, 0, 5, 0), cd(stream, 0, 1), cd_table(stream)],
        _ => vec![],
    }
}

/// One that no command by address is about.
fn bystander() -> Words {
    cd_table(0xFFFF_0000)
}

fn image(rows: &[Words], named: u64) -> Image {
    let kept = with_rows(Control::fields(0), rows);
    Image { kept, named }
}

/// As many images as it takes to have all rows for a batch.
pub fn images(batch: &Batch, features: u64) -> Vec<Image> {
    let mut all = vec![bystander()];
    all.extend(batch.pages.iter().flat_map(|pages| rows(pages, features)));
    all.extend(batch.commands.iter().flat_map(|&own| of_stream(own)));
    let parts = all.chunks(ROWS as usize);
    parts.map(|rows| image(rows, 0)).collect()
}

impl Image {
    /// The row by which the merging differs before the others that it might differ by.
    pub fn around(slip: &Slip, features: u64) -> Image {
        let pages = &slip.pages;
        let mut all = vec![bystander()];
        all.push(match slip.row {
            Sort::Page => page(pages, slip.at, features),
            Sort::Table => table(pages, slip.at, features),
        });
        all.extend(rows(pages, features));
        all.truncate(ROWS as usize);
        image(&all, 1)
    }
}
