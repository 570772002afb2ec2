//! One call as data, so that unit and model are given the same.

#[derive(Clone, Copy, Debug)]
pub enum Call<'a> {
    Run {
        queue: &'a [u8],
        features: u64,
        allowance: u64,
    },
    Fill {
        row: u64,
        words: [u64; 4],
        allowance: u64,
    },
    Doorbell {
        wr: u64,
    },
    Acknowledge,
    Enable {
        on: u64,
    },
    Translate(Asked),
    State,
    ClearPending,
    TableFill {
        row: u64,
        words: [u64; 2],
        allowance: u64,
    },
    /// Commands of sixteen words each, to be written into the lent queue.
    WriteBatch {
        commands: &'a [u64],
        features: u64,
    },
    /// Two batches of commands, 16 bytes each.
    CheckBatch {
        original: &'a [u8],
        proposed: &'a [u8],
        features: u64,
    },
    EventWrite {
        record: &'a [u8; 32],
        allowance: u64,
    },
    EventRead,
    EventAcknowledge,
    /// A command, to be written into the lent slot.
    WriteCommand {
        fields: &'a [u64; 16],
        features: u64,
    },
}

/// A transaction as the C interface takes it.
#[derive(Clone, Copy, Debug)]
pub struct Asked {
    pub stream: u32,
    pub substream: u32,
    pub address: u64,
    pub how: u64,
    pub memattr: u64,
    pub sh: u64,
    pub hints: u64,
}

/// The names of the calls, in the order of `Call::index`.
pub const NAMES: [&str; 15] = [
    "run",
    "fill",
    "doorbell",
    "acknowledge",
    "enable",
    "translate",
    "state",
    "clear_pending",
    "table_fill",
    "write_batch",
    "check_batch",
    "event_write",
    "event_read",
    "event_acknowledge",
    "write_command",
];

/// The calls before this one are on the kept memory.
pub const FIRST_EVENT: usize = 11;
/// These are on the words of the event recorder. The last call of all is on neither.
pub const EVENT_CALLS: std::ops::Range<usize> = FIRST_EVENT..14;

/// The numbers that each call is passed and their bits, in the order of the C
/// interface; memory, second table, queue, slot, batches, record and the words of
/// commands aren't among them.
pub const NUMBERS: [&[(&str, u32)]; NAMES.len()] = [
    &[("features", 64), ("allowance", 64)],
    &[
        ("row", 64),
        ("w0", 64),
        ("w1", 64),
        ("w2", 64),
        ("w3", 64),
        ("allowance", 64),
    ],
    &[("wr", 64)],
    &[],
    &[("on", 64)],
    &[
        ("stream", 32),
        ("substream", 32),
        ("address", 64),
        ("how", 64),
        ("memattr", 64),
        ("sh", 64),
        ("hints", 64),
    ],
    &[],
    &[],
    &[("row", 64), ("w0", 64), ("w1", 64), ("allowance", 64)],
    &[("features", 64)],
    &[("features", 64)],
    &[("allowance", 64)],
    &[],
    &[],
    &[("features", 64)],
];

/// The returned number and the answer's words.
#[derive(Clone, Copy, Debug, PartialEq, Eq)]
pub struct Reply {
    pub number: u64,
    pub answer: [u64; 8],
}

/// The run's ends as the C interface numbers them.
pub const HELD: u64 = 1;
pub const RAISED: u64 = 3;
pub const CUT: u64 = 4;

/// A fill's end, of either table, unless it was whole.
pub const FILL_CUT: u64 = 1;

/// What a check of a batch says.
pub const YES: u64 = 0;
pub const UNQUALIFIED: u64 = 1;
pub const DIFFERS: u64 = 2;

/// The ends of an event write.
pub const STORED: u64 = 0;
pub const DROPPED: u64 = 1;
pub const WRITE_CUT: u64 = 2;

impl Call<'_> {
    pub fn index(&self) -> usize {
        match self {
            Call::Run { .. } => 0,
            Call::Fill { .. } => 1,
            Call::Doorbell { .. } => 2,
            Call::Acknowledge => 3,
            Call::Enable { .. } => 4,
            Call::Translate(_) => 5,
            Call::State => 6,
            Call::ClearPending => 7,
            Call::TableFill { .. } => 8,
            Call::WriteBatch { .. } => 9,
            Call::CheckBatch { .. } => 10,
            Call::EventWrite { .. } => 11,
            Call::EventRead => 12,
            Call::EventAcknowledge => 13,
            Call::WriteCommand { .. } => 14,
        }
    }

    /// The numbers passed, in the order of `NUMBERS`.
    pub fn numbers(&self) -> Vec<u64> {
        match *self {
            Call::Run {
                features,
                allowance,
                ..
            } => vec![features, allowance],
            Call::Fill {
                row,
                words: [w0, w1, w2, w3],
                allowance,
            } => vec![row, w0, w1, w2, w3, allowance],
            Call::Doorbell { wr } => vec![wr],
            Call::Enable { on } => vec![on],
            Call::Translate(asked) => vec![
                asked.stream.into(),
                asked.substream.into(),
                asked.address,
                asked.how,
                asked.memattr,
                asked.sh,
                asked.hints,
            ],
            Call::TableFill {
                row,
                words: [w0, w1],
                allowance,
            } => vec![row, w0, w1, allowance],
            Call::WriteBatch { features, .. } | Call::CheckBatch { features, .. } => vec![features],
            Call::EventWrite { allowance, .. } => vec![allowance],
            Call::WriteCommand { features, .. } => vec![features],
            Call::Acknowledge | Call::State | Call::ClearPending => vec![],
            Call::EventRead | Call::EventAcknowledge => vec![],
        }
    }

    /// The same call with other numbers, as many as it is passed.
    pub fn passing(self, numbers: &[u64]) -> Self {
        match (self, numbers) {
            (Call::Run { queue, .. }, &[features, allowance]) => Call::Run {
                queue,
                features,
                allowance,
            },
            (Call::Fill { .. }, &[row, w0, w1, w2, w3, allowance]) => Call::Fill {
                row,
                words: [w0, w1, w2, w3],
                allowance,
            },
            (Call::Doorbell { .. }, &[wr]) => Call::Doorbell { wr },
            (Call::Enable { .. }, &[on]) => Call::Enable { on },
            (Call::Translate(_), &[stream, substream, address, how, memattr, sh, hints]) => {
                Call::Translate(Asked {
                    stream: stream as u32,
                    substream: substream as u32,
                    address,
                    how,
                    memattr,
                    sh,
                    hints,
                })
            }
            (Call::TableFill { .. }, &[row, w0, w1, allowance]) => Call::TableFill {
                row,
                words: [w0, w1],
                allowance,
            },
            (Call::WriteBatch { commands, .. }, &[features]) => {
                Call::WriteBatch { commands, features }
            }
            (
                Call::CheckBatch {
                    original, proposed, ..
                },
                &[features],
            ) => Call::CheckBatch {
                original,
                proposed,
                features,
            },
            (Call::EventWrite { record, .. }, &[allowance]) => {
                Call::EventWrite { record, allowance }
            }
            (Call::WriteCommand { fields, .. }, &[features]) => {
                Call::WriteCommand { fields, features }
            }
            (call, &[]) => call,
            _ => panic!("a call of other numbers"),
        }
    }
}
