//! Whether two rows could answer one access.

use super::row::{Kind, Mark, Row};

pub fn doubles(new: &Row, old: &Row) -> bool {
    let answer = |row: &Row| row.last_level && row.mark == Mark::Guest;
    if !answer(new) || !answer(old) || new.kind != old.kind {
        return false;
    }
    match new.kind {
        Kind::Ste => new.stream == old.stream,
        Kind::Cd => new.stream == old.stream && new.substream == old.substream,
        Kind::Stage1 => {
            let same_asid = new.asid == old.asid || new.global || old.global;
            same_asid && share_address(new, old)
        }
        Kind::Stage2 => share_address(new, old),
    }
}

fn share_address(new: &Row, old: &Row) -> bool {
    new.vmid == old.vmid && new.addresses().meets(old.addresses())
}
