//! The recorder: a ring of records of 32 bytes in words of its own.

use crate::error::{demand, FieldError};
use crate::layout::{self, get, put, RECORD_BYTES};
use crate::refusal::Refusal;
use crate::{ring, unit};

/// A record. The recorder takes any 32 bytes; the first eight of an event are a word with its number and its stream, as
/// IHI 0070 has it.
#[derive(Clone, Copy, Debug, PartialEq, Eq, Hash)]
pub struct Record(pub [u8; RECORD_BYTES]);

/// The bytes of a word.
const WORD: usize = size_of::<u64>();

impl Record {
    /// The record of an event of a stream; its other bytes are 0.
    ///
    /// ```
    /// let record = tahvenno::Record::event(0x10, 5);
    /// assert_eq!(record.0[..8], [0x10, 0, 0, 0, 5, 0, 0, 0]);
    /// ```
    pub fn event(number: u8, stream: u32) -> Self {
        let first = put(layout::RECORD_EVENT, number.into()) | put(layout::RECORD_STREAM, stream.into());
        Self::of_words([first, 0, 0, 0])
    }

    /// The number of an event.
    ///
    /// ```
    /// assert_eq!(tahvenno::Record::event(0x10, 5).number(), 0x10);
    /// ```
    pub fn number(&self) -> u8 {
        get(layout::RECORD_EVENT, self.first()) as u8
    }

    /// The stream of an event.
    ///
    /// ```
    /// assert_eq!(tahvenno::Record::event(0x10, 5).stream(), 5);
    /// ```
    pub fn stream(&self) -> u32 {
        get(layout::RECORD_STREAM, self.first()) as u32
    }

    fn first(&self) -> u64 {
        self.0.first_chunk().map_or(0, |bytes| u64::from_le_bytes(*bytes))
    }

    fn of_words(words: [u64; RECORD_BYTES / WORD]) -> Self {
        let mut bytes = [0; RECORD_BYTES];
        for (bytes, word) in bytes.chunks_exact_mut(WORD).zip(words) {
            bytes.copy_from_slice(&word.to_le_bytes());
        }
        Self(bytes)
    }
}

/// The parts of a well-formed index word, `events[0]`.
#[derive(Clone, Copy, Debug, Default, PartialEq, Eq, Hash)]
pub struct EventIndex {
    /// The index of the oldest record that waits, with its wrap bit.
    pub rd: u32,
    /// The index behind the newest record, with its wrap bit.
    pub wr: u32,
    /// Flips with the first record that is dropped.
    pub overflow: bool,
    /// Follows `overflow` when that is acknowledged.
    pub acknowledged: bool,
    /// The recorder has 2^n slots.
    pub n: u8,
}

impl EventIndex {
    /// The parts of an index word, or what makes it ill formed. That its n is that of the recorder's length is not
    /// looked at.
    ///
    /// ```
    /// use tahvenno::EventIndex;
    /// let mut events = [0; tahvenno::event_words(2)];
    /// tahvenno::empty_recorder(&mut events).unwrap();
    /// assert_eq!(EventIndex::parse(events[0])?, EventIndex { n: 2, ..EventIndex::default() });
    /// # Ok::<(), tahvenno::FieldError>(())
    /// ```
    pub fn parse(word: u64) -> Result<Self, FieldError> {
        let index = Self {
            rd: get(layout::EVENT_RD, word) as u32,
            wr: get(layout::EVENT_WR, word) as u32,
            overflow: word & layout::EVENT_OVERFLOW != 0,
            acknowledged: word & layout::EVENT_ACKNOWLEDGED != 0,
            n: get(layout::EVENT_N, word) as u8,
        };
        demand(index.word()? == word, FieldError::Unnamed)?;
        Ok(index)
    }

    /// The index word of these parts, or what of them is out of range.
    ///
    /// ```
    /// use tahvenno::{EventIndex, FieldError};
    /// assert_eq!(EventIndex { n: 8, ..EventIndex::default() }.word(), Err(FieldError::N));
    /// ```
    pub fn word(&self) -> Result<u64, FieldError> {
        demand(u64::from(self.n) <= layout::MAX_EVENT_N, FieldError::N)?;
        ring::check(self.n, self.rd, self.wr)?;
        Ok(put(layout::EVENT_RD, self.rd.into())
            | put(layout::EVENT_WR, self.wr.into())
            | put(layout::EVENT_OVERFLOW, self.overflow.into())
            | put(layout::EVENT_ACKNOWLEDGED, self.acknowledged.into())
            | put(layout::EVENT_N, self.n.into()))
    }

    /// How many records wait.
    ///
    /// ```
    /// use tahvenno::EventIndex;
    /// assert_eq!(EventIndex { n: 1, rd: 3, wr: 0, ..EventIndex::default() }.waiting(), 1);
    /// ```
    pub fn waiting(&self) -> u32 {
        ring::waiting(self.n, self.rd, self.wr)
    }

    /// Whether a record was dropped since the last acknowledge.
    ///
    /// ```
    /// use tahvenno::EventIndex;
    /// assert!(EventIndex { overflow: true, ..EventIndex::default() }.outstanding());
    /// ```
    pub fn outstanding(&self) -> bool {
        self.overflow != self.acknowledged
    }
}

numbered! {
    /// How an event write ended.
    EventEnd {
        /// The record waits behind the others.
        Stored = layout::EVENT_STORED, "the record is stored";
        /// All slots hold records that nobody has read.
        Dropped = layout::EVENT_DROPPED, "the ring is full, and the record is dropped";
        /// A store was due and none was left; no part of the record is in the ring.
        Cut = layout::EVENT_CUT, "cut, and the record is not in the ring";
    }
}

/// What an event write did.
#[derive(Clone, Copy, Debug, PartialEq, Eq, Hash)]
pub struct EventWrite {
    /// How it ended.
    pub end: EventEnd,
    /// Stores made.
    pub stores: u64,
}

/// Records an event, with at most `allowance` stores; it makes [`layout::RECORD_STORES`].
///
/// ```
/// use tahvenno::*;
/// let mut events = [0; event_words(0)];
/// empty_recorder(&mut events)?;
/// let record = Record::event(0x10, 5);
/// assert_eq!(event_write(&mut events, &record, layout::RECORD_STORES)?.end, EventEnd::Stored);
/// assert_eq!(event_write(&mut events, &record, layout::RECORD_STORES)?.end, EventEnd::Dropped);
/// # Ok::<(), Refusal>(())
/// ```
pub fn event_write(events: &mut [u64], record: &Record, allowance: u64) -> Result<EventWrite, Refusal> {
    let [end, stores, ..] = unit::event_write(events, &record.0, allowance)?;
    Ok(EventWrite { end: unit::known(end), stores })
}

/// Takes the oldest record out.
///
/// ```
/// use tahvenno::*;
/// let mut events = [0; event_words(1)];
/// empty_recorder(&mut events)?;
/// event_write(&mut events, &Record::event(0x10, 5), layout::RECORD_STORES)?;
/// assert_eq!(event_read(&mut events)?.stream(), 5);
/// assert_eq!(event_read(&mut events), Err(Refusal::NoRecord));
/// # Ok::<(), Refusal>(())
/// ```
pub fn event_read(events: &mut [u64]) -> Result<Record, Refusal> {
    let [w0, w1, w2, w3, ..] = unit::event_read(events)?;
    Ok(Record::of_words([w0, w1, w2, w3]))
}

/// Someone knows that records were dropped.
///
/// ```
/// use tahvenno::{event_acknowledge, event_words, EventIndex, Refusal};
/// let mut events = [0; event_words(0)];
/// events[0] = EventIndex { overflow: true, ..EventIndex::default() }.word()?;
/// event_acknowledge(&mut events)?;
/// assert_eq!(event_acknowledge(&mut events), Err(Refusal::NoOverflow));
/// # Ok::<(), Box<dyn std::error::Error>>(())
/// ```
pub fn event_acknowledge(events: &mut [u64]) -> Result<(), Refusal> {
    unit::event_acknowledge(events).map(drop)
}
