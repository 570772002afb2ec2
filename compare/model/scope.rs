//! Which rows a removing command takes (document 01, Commands and their scopes;
//! document 02, T-05 and T-07).

use super::range::Extent;
use super::row::{Kind, Regime, Row};

#[derive(Clone, Copy, Debug, PartialEq, Eq)]
pub enum Scope {
    /// Codes 03 and 04: the streams equal to `stream` above its low bits.
    Streams {
        stream: u64,
        low_bits: u64,
        leaf: bool,
    },
    /// Code 05.
    Substream {
        stream: u64,
        substream: u64,
        leaf: bool,
    },
    /// Code 06.
    Descriptors { stream: u64 },
    /// Code 10.
    Stage1 { vmid: u64 },
    /// Code 11.
    Space { vmid: u64, asid: u64 },
    /// Code 12, and 13 without an ASID.
    Stage1Page(Page, Option<u64>),
    /// Code 20.
    Hypervisor,
    /// Code 21.
    HypervisorSpace { asid: u64 },
    /// Codes 22 and 23 where E2H isn't set.
    El2Page(Page),
    /// Code 22 where E2H is set, and 23 without an ASID.
    El2E2hPage(Page, Option<u64>),
    /// Code 28.
    BothStages { vmid: u64 },
    /// Code 2A.
    Stage2Page(Page),
    /// Code 30.
    Everything,
}

/// What the commands by address have in common.
#[derive(Clone, Copy, Debug, PartialEq, Eq)]
pub struct Page {
    pub vmid: u64,
    pub leaf: bool,
    pub extent: Extent,
}

impl Scope {
    /// Whether a row is in use and in scope.
    pub fn takes(&self, row: &Row) -> bool {
        row.used() && self.takes_used(row, row.kind())
    }

    fn takes_used(&self, row: &Row, kind: Kind) -> bool {
        match *self {
            Scope::Streams {
                stream,
                low_bits,
                leaf,
            } => streams(row, stream, low_bits, leaf),
            Scope::Substream {
                stream,
                substream,
                leaf,
            } => kind == Kind::Cd && row.stream() == stream && descriptor(row, substream, leaf),
            Scope::Descriptors { stream } => kind == Kind::Cd && row.stream() == stream,
            Scope::BothStages { vmid } => stage(row) && row.vmid() == vmid,
            Scope::Stage2Page(page) => kind == Kind::Stage2 && page.takes(row),
            Scope::Everything => stage(row),
            _ => kind == Kind::Stage1 && self.takes_stage1(row, row.regime()),
        }
    }

    /// The commands for stage 1 alone: each is about the rows of one regime, but for
    /// code 20, which is about both of the hypervisor's.
    fn takes_stage1(&self, row: &Row, regime: Option<Regime>) -> bool {
        let guest = regime == Some(Regime::Guest);
        let el2 = regime == Some(Regime::El2);
        let el2_e2h = regime == Some(Regime::El2E2h);
        match *self {
            Scope::Stage1 { vmid } => guest && row.vmid() == vmid,
            Scope::Space { vmid, asid } => guest && row.vmid() == vmid && own(row, asid),
            Scope::Stage1Page(page, asid) => guest && page.takes(row) && met(row, asid),
            Scope::Hypervisor => el2 || el2_e2h,
            Scope::HypervisorSpace { asid } => el2_e2h && own(row, asid),
            Scope::El2Page(page) => el2 && page.takes(row),
            Scope::El2E2hPage(page, asid) => el2_e2h && page.takes(row) && met(row, asid),
            _ => false,
        }
    }
}

/// Whether a row is of the ASID and not global.
fn own(row: &Row, asid: u64) -> bool {
    row.asid() == asid && !row.global()
}

/// Whether a row is of the ASID or global, if one is asked for.
fn met(row: &Row, asid: Option<u64>) -> bool {
    asid.map_or(true, |asid| row.asid() == asid || row.global())
}

impl Page {
    fn takes(&self, row: &Row) -> bool {
        row.vmid() == self.vmid && self.extent.meets(row) && (row.last_level() || !self.leaf)
    }
}

/// A row of either stage, but not one of the hypervisor's own.
fn stage(row: &Row) -> bool {
    matches!(row.kind(), Kind::Stage1 | Kind::Stage2) && !row.marked()
}

/// Leaf keeps STE rows above the last level, but never a CD row.
fn streams(row: &Row, stream: u64, low_bits: u64, leaf: bool) -> bool {
    let ignored = match (row.kind(), row.last_level()) {
        (Kind::Cd, _) | (Kind::Ste, true) => low_bits,
        (Kind::Ste, false) if leaf => return false,
        // Two aligned blocks meet if they're equal above the wider one's bits.
        (Kind::Ste, false) => low_bits.max(row.span()),
        _ => return false,
    };
    row.stream() >> ignored == stream >> ignored
}

/// A CD row above the last level has no substream of its own.
fn descriptor(row: &Row, substream: u64, leaf: bool) -> bool {
    if row.last_level() {
        row.substream() == substream
    } else {
        !leaf
    }
}
