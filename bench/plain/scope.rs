//! Which rows a command removes.

use super::region::Region;
use super::row::{Kind, Mark, Row};
use super::span::Span;

/// Commands about rows of the kept memory.
#[derive(Clone, Copy)]
pub enum RowScope {
    Ste {
        stream: u32,
        leaf: bool,
    },
    SteRange {
        stream: u32,
        range: u32,
    },
    Cd {
        stream: u32,
        substream: u32,
        leaf: bool,
    },
    CdAll {
        stream: u32,
    },
    NhAll {
        vmid: u16,
    },
    NhAsid {
        vmid: u16,
        asid: u16,
    },
    NhVa {
        vmid: u16,
        asid: u16,
        pages: Pages,
    },
    NhVaa {
        vmid: u16,
        pages: Pages,
    },
    El2All,
    El2Asid {
        asid: u16,
    },
    El2Va {
        e2h: bool,
        asid: u16,
        pages: Pages,
    },
    El2Vaa {
        e2h: bool,
        pages: Pages,
    },
    S12Vmall {
        vmid: u16,
    },
    S2Ipa {
        vmid: u16,
        pages: Pages,
    },
    NsnhAll,
}

/// What a command by address names.
#[derive(Clone, Copy)]
pub struct Pages {
    pub addresses: Span,
    pub leaf: bool,
}

impl Pages {
    fn take(&self, row: &Row) -> bool {
        (row.last_level || !self.leaf) && row.addresses().meets(self.addresses)
    }
}

impl RowScope {
    /// Asked of every row by every command, so that a call for each would be the most of it.
    #[inline]
    pub fn holds(&self, row: &Row) -> bool {
        let guest1 = row.kind == Kind::Stage1 && row.mark == Mark::Guest;
        let stage2 = row.kind == Kind::Stage2;
        match *self {
            RowScope::Ste { stream, leaf } => ste(row, stream, leaf),
            RowScope::SteRange { stream, range } => ste_range(row, stream, range),
            RowScope::Cd {
                stream,
                substream,
                leaf,
            } => cd(row, stream, substream, leaf),
            RowScope::CdAll { stream } => row.kind == Kind::Cd && row.stream == stream,
            RowScope::NhAll { vmid } => guest1 && row.vmid == vmid,
            RowScope::NhAsid { vmid, asid } => {
                guest1 && row.vmid == vmid && row.asid == asid && !row.global
            }
            RowScope::NhVa { vmid, asid, pages } => {
                guest1 && row.vmid == vmid && has_asid(row, asid) && pages.take(row)
            }
            RowScope::NhVaa { vmid, pages } => guest1 && row.vmid == vmid && pages.take(row),
            RowScope::El2All => row.mark != Mark::Guest,
            RowScope::El2Asid { asid } => {
                row.mark == Mark::El2E2h && row.asid == asid && !row.global
            }
            RowScope::El2Va { e2h, asid, pages } => {
                row.mark == el2(e2h) && (!e2h || has_asid(row, asid)) && pages.take(row)
            }
            RowScope::El2Vaa { e2h, pages } => row.mark == el2(e2h) && pages.take(row),
            RowScope::S12Vmall { vmid } => (guest1 || stage2) && row.vmid == vmid,
            RowScope::S2Ipa { vmid, pages } => stage2 && row.vmid == vmid && pages.take(row),
            RowScope::NsnhAll => guest1 || stage2,
        }
    }
}

fn ste(row: &Row, stream: u32, leaf: bool) -> bool {
    match row.kind {
        Kind::Ste if row.last_level => row.stream == stream,
        Kind::Ste => !leaf && row.stream >> row.span == stream >> row.span,
        Kind::Cd => row.stream == stream,
        Kind::Stage1 | Kind::Stage2 => false,
    }
}

/// The row's block and the command's meet if the smaller one lies in the larger.
fn ste_range(row: &Row, stream: u32, range: u32) -> bool {
    let bits = match row.kind {
        Kind::Ste => row.span.max(range + 1),
        Kind::Cd => range + 1,
        Kind::Stage1 | Kind::Stage2 => return false,
    };
    // A block may be all of the 32 bits.
    u64::from(row.stream) >> bits == u64::from(stream) >> bits
}

/// A table of CDs has no substream of its own.
fn cd(row: &Row, stream: u32, substream: u32, leaf: bool) -> bool {
    let level = if row.last_level {
        row.substream == substream
    } else {
        !leaf
    };
    row.kind == Kind::Cd && row.stream == stream && level
}

fn has_asid(row: &Row, asid: u16) -> bool {
    row.global || row.asid == asid
}

fn el2(e2h: bool) -> Mark {
    match e2h {
        true => Mark::El2E2h,
        false => Mark::El2,
    }
}

/// Commands about rows of the second table.
#[derive(Clone, Copy)]
pub enum RegionScope {
    All,
    /// From the address on; this is a multiple of the size.
    Pa {
        address: u64,
        log2: u32,
        leaf: bool,
    },
}

impl RegionScope {
    pub fn holds(&self, region: &Region) -> bool {
        match *self {
            RegionScope::All => true,
            RegionScope::Pa {
                address,
                log2,
                leaf,
            } => {
                region.log2 <= log2
                    && region.base >> log2 == address >> log2
                    && (region.last_level || !leaf)
            }
        }
    }
}
