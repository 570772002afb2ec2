//! The stores that a call may still make.

/// A store was due and none was left.
pub struct Cut;

pub struct Allowance {
    left: u64,
    pub made: u64,
}

impl Allowance {
    pub fn new(left: u64) -> Allowance {
        Allowance { left, made: 0 }
    }

    /// Every store goes through here.
    pub fn store(&mut self, place: &mut u64, word: u64) -> Result<(), Cut> {
        if self.left == 0 {
            return Err(Cut);
        }
        *place = word;
        self.left -= 1;
        self.made += 1;
        Ok(())
    }
}
