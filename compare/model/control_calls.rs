//! Doorbell, acknowledge, enable and disable (document 01, One run), and clearing
//! the pending bit (document 02, T-08): one control store each, never cut.

use super::image;
use super::refusal::Refusal;

/// The guest's new WR.
pub fn doorbell(kept: &mut [u64], wr: u64) -> Result<(), Refusal> {
    let mut control = image::accept(kept)?;
    if wr >= control.ring() {
        return Err(Refusal::Doorbell);
    }
    let distance = control.distance(wr);
    if distance > control.slots() || distance < control.distance(control.wr) {
        return Err(Refusal::Doorbell);
    }
    control.wr = wr;
    kept[0] = control.pack();
    Ok(())
}

/// Ends an active error; ERR stays to be read.
pub fn acknowledge(kept: &mut [u64]) -> Result<(), Refusal> {
    let mut control = image::accept(kept)?;
    if !control.active() {
        return Err(Refusal::NoError);
    }
    control.gerrorn = control.gerror;
    kept[0] = control.pack();
    Ok(())
}

/// CMDQEN on or off.
pub fn enable(kept: &mut [u64], on: bool) -> Result<(), Refusal> {
    let mut control = image::accept(kept)?;
    control.enabled = on;
    kept[0] = control.pack();
    Ok(())
}

/// The interrupt that was pending has been raised.
pub fn clear_pending(kept: &mut [u64]) -> Result<(), Refusal> {
    let mut control = image::accept(kept)?;
    if !control.pending {
        return Err(Refusal::NotPending);
    }
    control.pending = false;
    kept[0] = control.pack();
    Ok(())
}
