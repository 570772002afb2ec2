//! The command writer and its batch form (document 02, T-10).

use super::command::{decode, supported, Features};
use super::fields::{places, put, Fields, CODE};
use super::image;
use super::refusal::Refusal;

/// Why there is no command of the fields.
#[derive(Clone, Copy, Debug, PartialEq, Eq)]
pub enum Unfit {
    Feature,
    Fields,
}

impl Unfit {
    /// The refusal of the command with this number.
    fn of(self, number: usize) -> Refusal {
        match self {
            Unfit::Feature => Refusal::FeatureAbsent(number),
            Unfit::Fields => Refusal::Fields(number),
        }
    }
}

/// The legal command of the fields. A missing feature comes before whatever is wrong
/// with them; a code that is none has no feature to miss.
pub fn compose(fields: &Fields, features: Features) -> Result<u128, Unfit> {
    if places(fields[CODE]).is_some() && !supported(fields[CODE], features) {
        return Err(Unfit::Feature);
    }
    let command = put(fields).ok_or(Unfit::Fields)?;
    match decode(command as u64, (command >> 64) as u64, features) {
        Ok(_) => Ok(command),
        Err(_) => Err(Unfit::Fields),
    }
}

/// One command into a slot.
pub fn write_command(slot: &mut [u8], fields: &Fields, features: Features) -> Result<(), Refusal> {
    if slot.len() != 16 {
        return Err(Refusal::SlotLength);
    }
    let command = compose(fields, features).map_err(|unfit| unfit.of(0))?;
    slot.copy_from_slice(&command.to_le_bytes());
    Ok(())
}

/// Commands into the free slots from WR on; then the doorbell, once for all.
pub fn write_batch(
    kept: &mut [u64],
    queue: &mut [u8],
    commands: &[u64],
    features: Features,
) -> Result<(), Refusal> {
    let mut control = image::accept(kept)?;
    if queue.len() as u64 != 16 * control.slots() {
        return Err(Refusal::QueueLength);
    }
    let mut composed = Vec::new();
    for (number, words) in commands.chunks(16).enumerate() {
        // The last one may not be whole.
        let fields = words.try_into().map_err(|_| Refusal::Fields(number))?;
        composed.push(compose(fields, features).map_err(|unfit| unfit.of(number))?);
    }
    let count = composed.len() as u64;
    if count > control.slots() - control.distance(control.wr) {
        return Err(Refusal::NoRoom);
    }
    for (index, command) in (control.wr..).zip(composed) {
        let start = 16 * (index % control.slots()) as usize;
        queue[start..start + 16].copy_from_slice(&command.to_le_bytes());
    }
    control.wr = (control.wr + count) % control.ring();
    kept[0] = control.pack();
    Ok(())
}
