//! The state that a host may ask for (document 01, What goes between host and unit).

use super::control::Control;
use super::image;
use super::refusal::Refusal;

/// The control fields, and the number of rows in use.
pub fn state(kept: &[u64]) -> Result<(Control, u64), Refusal> {
    let control = image::accept(kept)?;
    Ok((control, image::used_rows(kept)))
}
