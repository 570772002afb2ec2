//! Two rows that could answer the same lookup (document 02, T-02 and T-05).

use super::row::{Kind, Row};

impl Row {
    /// Whether both are in use and last-level, and of one kind that could answer
    /// the same lookup. Only last-level rows without a mark answer.
    pub fn doubles(&self, other: &Row) -> bool {
        let answer = |row: &Row| row.used() && row.last_level() && !row.marked();
        answer(self) && answer(other) && self.kind() == other.kind() && self.same_lookup(other)
    }

    fn same_lookup(&self, other: &Row) -> bool {
        let stream = self.stream() == other.stream();
        let mapped = self.vmid() == other.vmid() && self.shares_address(other);
        match self.kind() {
            Kind::Ste => stream,
            Kind::Cd => stream && self.substream() == other.substream(),
            Kind::Stage1 => {
                mapped && (self.asid() == other.asid() || self.global() || other.global())
            }
            Kind::Stage2 => mapped,
        }
    }

    /// Whether the spans overlap: neither begins after the other's last address.
    fn shares_address(&self, other: &Row) -> bool {
        self.input() <= other.last() && other.input() <= self.last()
    }
}
