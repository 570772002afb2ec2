//! Whether the words of a row are well formed.

use super::attributes::{is_memattr, Attributes};
use super::bits::{bit, field, is_multiple, mask};
use super::row::{Kind, Mark, Row};

/// Addresses are below this power of two, but for stage 1's upper half.
const ADDRESS_BITS: u32 = 52;
/// Bits 63:52 of an input address of the upper half.
const UPPER: u64 = mask(63, ADDRESS_BITS) >> ADDRESS_BITS;

const HEAD: u64 = mask(3, 0);
const GLOBAL: u64 = mask(4, 4);
const SPAN: u64 = mask(10, 5);
const EL2: u64 = mask(11, 11);
const EL2_E2H: u64 = mask(12, 12);
const VMID: u64 = mask(31, 16);
const ASID: u64 = mask(47, 32);
const STE_PAYLOAD: u64 = mask(62, 48);
const MEMATTR_SH: u64 = mask(53, 48);
const HINTS: u64 = mask(59, 54);
const STREAM: u64 = mask(31, 0);
const SUBSTREAM: u64 = mask(51, 32);
const CONFIG: u64 = mask(54, 52);

pub fn well_formed(words: &[u64]) -> bool {
    let Some(row) = Row::decode(words) else {
        return true;
    };
    let unnamed = |(word, named): (&u64, u64)| word & !named != 0;
    if !bit(words[0], 0) || words.iter().zip(named(&row)).any(unnamed) {
        return false;
    }
    match row.kind {
        Kind::Ste => ste(&row),
        Kind::Cd => true,
        Kind::Stage1 | Kind::Stage2 => stage(&row),
    }
}

/// The parts that a row of its kind has; all others are 0.
fn named(row: &Row) -> [u64; 4] {
    match (row.kind, row.last_level) {
        (Kind::Ste, true) => [HEAD | VMID | STE_PAYLOAD, STREAM | CONFIG, 0, 0],
        (Kind::Ste, false) => [HEAD | SPAN, STREAM, 0, 0],
        (Kind::Cd, true) => [HEAD | ASID, STREAM | SUBSTREAM, 0, 0],
        (Kind::Cd, false) => [HEAD, STREAM, 0, 0],
        (Kind::Stage1, true) => [stage1(row.mark) | MEMATTR_SH | HINTS, 0, !0, !0],
        (Kind::Stage1, false) => [stage1(row.mark), 0, !0, 0],
        (Kind::Stage2, true) => [HEAD | SPAN | VMID | MEMATTR_SH, 0, !0, !0],
        (Kind::Stage2, false) => [HEAD | SPAN | VMID, 0, !0, 0],
    }
}

fn stage1(mark: Mark) -> u64 {
    match mark {
        Mark::Guest => HEAD | SPAN | GLOBAL | VMID | ASID,
        Mark::El2 => HEAD | SPAN | EL2,
        Mark::El2E2h => HEAD | SPAN | EL2_E2H | GLOBAL | ASID,
    }
}

fn ste(row: &Row) -> bool {
    if row.last_level {
        let memattr = field(row.payload.into(), 4, 1) as u8;
        matches!(row.config, 0 | 4..=7) && is_memattr(memattr)
    } else {
        matches!(row.span, 6 | 8 | 10) && is_multiple(row.stream.into(), row.span)
    }
}

fn stage(row: &Row) -> bool {
    let upper = row.kind == Kind::Stage1 && row.input >> ADDRESS_BITS == UPPER;
    (12..=48).contains(&row.span)
        && is_multiple(row.input, row.span)
        && (row.input >> ADDRESS_BITS == 0 || upper)
        && (!row.last_level || answers(row))
}

fn answers(row: &Row) -> bool {
    row.output >> ADDRESS_BITS == 0
        && is_multiple(row.output, row.span)
        && Attributes::of_row(row).well_formed()
}
