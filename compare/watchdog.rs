//! Ends the program if the unit doesn't come back from a call.

use std::sync::atomic::{AtomicU64, Ordering};
use std::time::Duration;

/// Far above what one call takes, even on a busy machine.
const PATIENCE: Duration = Duration::from_secs(15);

static RETURNED: AtomicU64 = AtomicU64::new(0);

/// To be told after each call of the unit.
pub fn returned() {
    RETURNED.fetch_add(1, Ordering::Relaxed);
}

/// Watches from a thread of its own until the program ends.
pub fn start(seed: u64) {
    std::thread::spawn(move || {
        let mut seen = u64::MAX;
        loop {
            let now = RETURNED.load(Ordering::Relaxed);
            if now == seen {
                println!("\nDIFFERENCE: the unit doesn't return");
                println!("seed {seed:#x}, compared call {}", now + 1);
                std::process::exit(1);
            }
            seen = now;
            std::thread::sleep(PATIENCE);
        }
    });
}
