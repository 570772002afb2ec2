//! The ways of saying no (document 01, When the unit says no; document 02, T-01,
//! T-02, T-08 and T-10 to T-12).

#[derive(Clone, Copy, Debug, PartialEq, Eq)]
pub enum Refusal {
    Length,
    Control,
    /// Carries the lowest ill-formed row, counted from 0.
    Row(usize),
    QueueLength,
    Doorbell,
    NoError,
    RowNumber,
    RowInUse,
    RowWords,
    Attributes,
    Doubled,
    NotPending,
    TableLength,
    /// Carries the lowest ill-formed row of the second table, counted from 0.
    TableRow(usize),
    EventsLength,
    EventsIndex,
    NoEvent,
    NoOverflow,
    SlotLength,
    /// A feature that a command needs is missing. Carries the command's number in its
    /// batch, counted from 0.
    FeatureAbsent(usize),
    /// A command's fields make none that is legal. Carries its number, too.
    Fields(usize),
    NoRoom,
    BatchLength,
}

impl Refusal {
    pub fn number(self) -> u64 {
        match self {
            Refusal::Length => 1,
            Refusal::Control => 2,
            Refusal::Row(_) => 3,
            Refusal::QueueLength => 4,
            Refusal::Doorbell => 5,
            Refusal::NoError => 6,
            Refusal::RowNumber => 7,
            Refusal::RowInUse => 8,
            Refusal::RowWords => 9,
            Refusal::Attributes => 10,
            Refusal::Doubled => 11,
            Refusal::NotPending => 12,
            Refusal::TableLength => 13,
            Refusal::TableRow(_) => 14,
            Refusal::EventsLength => 15,
            Refusal::EventsIndex => 16,
            Refusal::NoEvent => 17,
            Refusal::NoOverflow => 18,
            Refusal::SlotLength => 19,
            Refusal::FeatureAbsent(_) => 20,
            Refusal::Fields(_) => 21,
            Refusal::NoRoom => 22,
            Refusal::BatchLength => 23,
        }
    }
}
