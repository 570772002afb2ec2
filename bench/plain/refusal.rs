//! Why a call isn't carried out.

pub enum Refusal {
    Length,
    Control,
    Row(usize),
    QueueLength,
    NoSuchRow,
    RowInUse,
    BadWords,
    BadAttributes,
    Doubled,
    TableLength,
    Region(usize),
    BatchLength,
}

impl Refusal {
    pub fn number(&self) -> u64 {
        match self {
            Refusal::Length => 1,
            Refusal::Control => 2,
            Refusal::Row(_) => 3,
            Refusal::QueueLength => 4,
            Refusal::NoSuchRow => 7,
            Refusal::RowInUse => 8,
            Refusal::BadWords => 9,
            Refusal::BadAttributes => 10,
            Refusal::Doubled => 11,
            Refusal::TableLength => 13,
            Refusal::Region(_) => 14,
            Refusal::BatchLength => 23,
        }
    }

    /// The row that is named, where one is.
    pub fn place(&self) -> u64 {
        match *self {
            Refusal::Row(row) | Refusal::Region(row) => row as u64,
            _ => 0,
        }
    }
}
