//! Each row is removed by a command of its own, anywhere among others that remove
//! none, so that the table empties evenly.

use super::{shuffle, Case, Command, Size, STAGE1_PAYLOAD, STAGE2_PAYLOAD, STE_PAYLOAD};
use crate::rows::{cd, cd_table, ste, ste_block, Reach, Words, STAGE1, STAGE2};

/// Code 30 isn't among them, since it would empty the table at once.
const CODES: [u64; 10] = [0x03, 0x04, 0x05, 0x06, 0x10, 0x11, 0x12, 0x13, 0x28, 0x2A];

pub fn case(letter: &'static str, what: &'static str, size: Size) -> Case {
    let code = |place: usize| CODES[place % CODES.len()];
    let numbered = |i: usize, number: usize| command(code(i), number as u64);
    let count = size.rows;
    let mut rows: Vec<Words> = (0..count).map(|i| row(code(i), i as u64)).collect();
    let mut order: Vec<usize> = (0..count).collect();
    shuffle(1, &mut rows);
    shuffle(2, &mut order);
    // Behind the command for a row so many of its code for none, and the rest last.
    let each = size.commands() / count;
    let about = |&i: &usize| (0..each).map(move |more| numbered(i, i + more * count));
    let rest = (each * count..size.commands()).map(|i| numbered(i, i));
    let commands: Vec<Command> = order.iter().flat_map(about).chain(rest).collect();
    Case {
        removes: Some(count as u64),
        ..Case::full(letter, what, size, &rows, &commands)
    }
}

/// Identifiers and places of their own for each number, so that a command is
/// about one row.
fn stream(number: u64) -> u64 {
    number << 10
}

fn reach(kind: u64, number: u64) -> Reach {
    Reach {
        kind,
        vmid: number,
        asid: number,
        global: false,
        span: 12,
        page: number << 21,
    }
}

/// The row that the command of the same code and number removes.
fn row(code: u64, number: u64) -> Words {
    let (first, second) = (reach(STAGE1, number), reach(STAGE2, number));
    let output = number << 24;
    match code {
        0x03 => ste(stream(number), number, 7, STE_PAYLOAD),
        0x04 => ste_block(stream(number), 6),
        0x05 => cd(stream(number), 1, number),
        0x06 => cd_table(stream(number)),
        0x10..=0x12 => first.page(output, STAGE1_PAYLOAD),
        0x13 => first.table(),
        0x28 => second.table(),
        _ => second.page(output, STAGE2_PAYLOAD),
    }
}

fn command(code: u64, number: u64) -> Command {
    let (vmid, asid, page) = (number << 32, number << 48, number << 21);
    let low = match code {
        0x03 | 0x06 => stream(number) << 32,
        // Within the row's block, but not within the command's block of its start.
        0x04 => (stream(number) + 32) << 32,
        0x05 => stream(number) << 32 | 1 << 12,
        0x11 | 0x12 => vmid | asid,
        _ => vmid,
    };
    let high = match code {
        0x03 | 0x05 => 1,
        0x04 => 2,
        0x12 | 0x2A => page | 1,
        0x13 => page,
        _ => 0,
    };
    (low | code, high)
}
