//! The control word, and the calls that store it alone.

use crate::error::{demand, FieldError};
use crate::layout::{self, get, put};
use crate::refusal::Refusal;
use crate::{ring, unit};

/// The parts of a well-formed control word, `kept[0]`.
#[derive(Clone, Copy, Debug, Default, PartialEq, Eq, Hash)]
pub struct Control {
    /// The index of the first command that waits, with its wrap bit.
    pub rd: u32,
    /// The index behind the last command that waits, with its wrap bit.
    pub wr: u32,
    /// 1 (CERROR_ILL) if the last error was an illegal command, else 0.
    pub err: u8,
    /// Flips with each error.
    pub gerror: bool,
    /// Follows `gerror` when the guest acknowledges.
    pub gerrorn: bool,
    /// The queue is enabled.
    pub enabled: bool,
    /// The queue has 2^log2size slots.
    pub log2size: u8,
    /// A completion interrupt is owed to the guest.
    pub pending: bool,
}

impl Control {
    /// The parts of a control word, or what makes it ill formed.
    ///
    /// ```
    /// use tahvenno::Control;
    /// let control = Control::parse(0x0006_0000_0030_0001)?;
    /// assert_eq!((control.rd, control.wr, control.log2size, control.enabled), (1, 3, 1, true));
    /// # Ok::<(), tahvenno::FieldError>(())
    /// ```
    pub fn parse(word: u64) -> Result<Self, FieldError> {
        let set = |mask| word & mask != 0;
        let control = Self {
            rd: get(layout::RD, word) as u32,
            wr: get(layout::WR, word) as u32,
            err: get(layout::ERR, word) as u8,
            gerror: set(layout::GERROR),
            gerrorn: set(layout::GERRORN),
            enabled: set(layout::CMDQEN),
            log2size: get(layout::LOG2SIZE, word) as u8,
            pending: set(layout::PENDING),
        };
        demand(control.word()? == word, FieldError::Unnamed)?;
        Ok(control)
    }

    /// The control word of these parts, or what of them is out of range.
    ///
    /// ```
    /// use tahvenno::{Control, FieldError};
    /// let control = Control { log2size: 3, wr: 8, ..Control::default() };
    /// assert_eq!(Control::parse(control.word()?)?, control);
    /// assert_eq!(Control { wr: 9, ..control }.word(), Err(FieldError::Wr));
    /// # Ok::<(), FieldError>(())
    /// ```
    pub fn word(&self) -> Result<u64, FieldError> {
        demand(u64::from(self.log2size) <= layout::MAX_LOG2SIZE, FieldError::Log2size)?;
        ring::check(self.log2size, self.rd, self.wr)?;
        demand(self.err == 1 || (self.err == 0 && !self.active()), FieldError::Err)?;
        Ok(put(layout::RD, self.rd.into())
            | put(layout::WR, self.wr.into())
            | put(layout::ERR, self.err.into())
            | put(layout::GERROR, self.gerror.into())
            | put(layout::GERRORN, self.gerrorn.into())
            | put(layout::CMDQEN, self.enabled.into())
            | put(layout::LOG2SIZE, self.log2size.into())
            | put(layout::PENDING, self.pending.into()))
    }

    /// Whether an error is active: no run does anything until it is acknowledged.
    ///
    /// ```
    /// use tahvenno::Control;
    /// assert!(Control { err: 1, gerror: true, ..Control::default() }.active());
    /// ```
    pub fn active(&self) -> bool {
        self.gerror != self.gerrorn
    }

    /// How many commands wait.
    ///
    /// ```
    /// use tahvenno::Control;
    /// assert_eq!(Control { log2size: 8, rd: 0x1FF, wr: 0, ..Control::default() }.waiting(), 1);
    /// ```
    pub fn waiting(&self) -> u32 {
        ring::waiting(self.log2size, self.rd, self.wr)
    }

    /// The slot of the first command that waits, if one does.
    ///
    /// ```
    /// use tahvenno::Control;
    /// assert_eq!(Control { log2size: 8, rd: 0x1FF, wr: 0, ..Control::default() }.slot(), 255);
    /// ```
    pub fn slot(&self) -> u32 {
        ring::slot(self.log2size, self.rd)
    }
}

/// What [`state`] tells.
#[derive(Clone, Copy, Debug, PartialEq, Eq, Hash)]
pub struct State {
    /// The index of the first command that waits.
    pub rd: u32,
    /// The index behind the last command that waits.
    pub wr: u32,
    /// The code of the last error.
    pub err: u8,
    /// An error is active.
    pub active: bool,
    /// The queue is enabled.
    pub enabled: bool,
    /// How many rows of the kept memory are in use.
    pub used: usize,
}

/// The state of a kept memory. [`Control::parse`] tells more of the control word: whether an interrupt is pending.
///
/// ```
/// let mut kept = [0; tahvenno::kept_words(2)];
/// tahvenno::empty(&mut kept, 1, true)?;
/// let state = tahvenno::state(&kept)?;
/// assert!(state.enabled && !state.active && state.used == 0);
/// # Ok::<(), tahvenno::Refusal>(())
/// ```
pub fn state(kept: &[u64]) -> Result<State, Refusal> {
    let [rd, wr, err, active, enabled, used, ..] = unit::state(kept)?;
    let (rd, wr, err) = (rd as u32, wr as u32, err as u8);
    Ok(State { rd, wr, err, active: active == 1, enabled: enabled == 1, used: used as usize })
}

/// The guest wrote WR: `wr` is the whole index, with its wrap bit.
///
/// ```
/// use tahvenno::{doorbell, empty, kept_words, state, Refusal};
/// let mut kept = [0; kept_words(1)];
/// empty(&mut kept, 1, true)?;
/// doorbell(&mut kept, 2)?;
/// assert_eq!(state(&kept)?.wr, 2);
/// assert_eq!(doorbell(&mut kept, 3), Err(Refusal::WriteIndex));
/// # Ok::<(), Refusal>(())
/// ```
pub fn doorbell(kept: &mut [u64], wr: u32) -> Result<(), Refusal> {
    unit::doorbell(kept, wr.into()).map(drop)
}

/// The guest acknowledged the error.
///
/// ```
/// use tahvenno::{acknowledge, kept_words, state, Control, Refusal};
/// let mut kept = [0; kept_words(1)];
/// kept[0] = Control { err: 1, gerror: true, ..Control::default() }.word()?;
/// acknowledge(&mut kept)?;
/// assert!(!state(&kept)?.active);
/// assert_eq!(acknowledge(&mut kept), Err(Refusal::NoError));
/// # Ok::<(), Box<dyn std::error::Error>>(())
/// ```
pub fn acknowledge(kept: &mut [u64]) -> Result<(), Refusal> {
    unit::acknowledge(kept).map(drop)
}

/// Enables the queue.
///
/// ```
/// use tahvenno::{empty, enable, kept_words, state};
/// let mut kept = [0; kept_words(1)];
/// empty(&mut kept, 0, false)?;
/// enable(&mut kept)?;
/// assert!(state(&kept)?.enabled);
/// # Ok::<(), tahvenno::Refusal>(())
/// ```
pub fn enable(kept: &mut [u64]) -> Result<(), Refusal> {
    unit::enable(kept, 1).map(drop)
}

/// Disables the queue.
///
/// ```
/// use tahvenno::{disable, empty, kept_words, state};
/// let mut kept = [0; kept_words(1)];
/// empty(&mut kept, 0, true)?;
/// disable(&mut kept)?;
/// assert!(!state(&kept)?.enabled);
/// # Ok::<(), tahvenno::Refusal>(())
/// ```
pub fn disable(kept: &mut [u64]) -> Result<(), Refusal> {
    unit::enable(kept, 0).map(drop)
}

/// The guest's interrupt was raised. No run may come between raising it and this.
///
/// ```
/// use tahvenno::{clear_pending, kept_words, Control, Refusal};
/// let mut kept = [0; kept_words(1)];
/// kept[0] = Control { pending: true, ..Control::default() }.word()?;
/// clear_pending(&mut kept)?;
/// assert!(!Control::parse(kept[0])?.pending);
/// assert_eq!(clear_pending(&mut kept), Err(Refusal::NotPending));
/// # Ok::<(), Box<dyn std::error::Error>>(())
/// ```
pub fn clear_pending(kept: &mut [u64]) -> Result<(), Refusal> {
    unit::clear_pending(kept).map(drop)
}
