//! Lengths of batches that are no whole commands.

use super::samples::{hall, own};
use super::{bytes, call};
use crate::checker::Checker;
use crate::generate::commands::Command;

pub fn sweeps(checker: &mut Checker) {
    checker.phase("check: lengths of batches");
    for one in (0..=66).chain([255, 256, 257, 4095, 4096, 4097]) {
        for other in [0, 1, 7, 8, 9, 15, 16, 17, 31, 32, 33, 47, 48, 49] {
            lengths(checker, one, other);
            lengths(checker, other, one);
        }
    }
    for one in 0..16 {
        (0..16).for_each(|other| lengths(checker, 32 + one, 16 + other));
    }
    for lost in [1 << 16, 1 << 20] {
        for near in [0, 1, 15, 16, 17] {
            lengths(checker, lost + near, 16);
            lengths(checker, 16, lost + near);
        }
    }
}

const LAW: &str = "23 isn't given exactly where a batch's length is no multiple of 16";

/// Batches of commands that qualify, or with one that doesn't, cut off there.
fn lengths(checker: &mut Checker, one: usize, other: usize) {
    let image = hall();
    for command in [own(0x03), (0x46, 0), (0x30, 0)] {
        let commands: Vec<Command> = vec![command; one.max(other) / 16 + 1];
        let batch = bytes(&commands);
        let call = call(&batch[..one], &batch[..other], image.features);
        let (mut kept, mut table) = (image.kept.clone(), image.table.clone());
        let reply = checker.both(&mut kept, &mut table, call);
        let due = if one % 16 + other % 16 > 0 { 23 } else { 0 };
        checker.insist(reply.number == due, LAW, &image.kept, call, (reply, &kept));
    }
}
