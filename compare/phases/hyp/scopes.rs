//! What every command takes of every form of row, at both settings of E2H.

use super::forms::own;
use super::{first, insist, taken, ASID, PAGE, SETTINGS, WRITE_BACK};
use crate::checker::Checker;
use crate::generate::commands::{Command, E2H, FOUR, HYP};
use crate::generate::rows::{cd, cd_table, marked, ste, ste_block, Reach, Words};
use crate::generate::rows::{EL2_E2H, MARKS, STAGE2};
use crate::limits::{SPANS, UPPER};
use crate::phases::limits::identifiers::family;
use crate::phases::upper::inside;

const ASID16: u64 = 1 << 2;
const STREAM: u64 = 0x77;

pub fn sweeps(checker: &mut Checker) {
    checker.phase("hypervisor: its commands over every form of row");
    let rows = rows();
    let commands = hypervisor(PAGE);
    for (&command, features) in commands.iter().flat_map(|command| both(command)) {
        scoped(checker, &rows, command, features);
        for &row in &rows {
            scoped(checker, &[row], command, features);
        }
    }
    checker.phase("hypervisor: the other commands over every form of row");
    for (command, features) in others().into_iter().flat_map(|command| settings(command)) {
        spared(checker, &rows, command, features);
    }
    checker.phase("hypervisor: ASIDs that are too wide");
    wide(checker);
    checker.phase("hypervisor: every bit of ASID and Address");
    identifiers(checker);
    checker.phase("hypervisor: commands at the edges of every span");
    for span in SPANS {
        for page in inside(span) {
            around(checker, span, page);
        }
    }
}

fn both(command: &Command) -> [(&Command, u64); 2] {
    SETTINGS.map(|features| (command, features))
}

/// With Hyp and without, at either E2H.
fn settings(command: Command) -> [(Command, u64); 4] {
    [FOUR, FOUR | E2H, FOUR | HYP, FOUR | HYP | E2H].map(|features| (command, features))
}

/// The hypervisor's rows at a page and at others; guests' rows of VMID 0 and of
/// another; stage 2; STE and CD rows.
fn rows() -> Vec<Words> {
    let mut rows: Vec<Words> = [PAGE, PAGE + 0x1000, PAGE | UPPER]
        .into_iter()
        .flat_map(|page| own(12, page))
        .collect();
    rows.extend(own(21, PAGE));
    for (vmid, global) in [(0, false), (0, true), (5, false)] {
        let guest = Reach {
            vmid,
            global,
            ..first(12, PAGE)
        };
        let second = Reach {
            kind: STAGE2,
            ..guest
        };
        rows.extend([guest.page(0, WRITE_BACK), guest.table()]);
        rows.extend([second.page(0, WRITE_BACK), second.table()]);
    }
    rows.extend([ste(STREAM, 0, 7, 0), ste_block(STREAM, 6)]);
    rows.extend([cd(STREAM, 0, ASID), cd_table(STREAM)]);
    rows
}

/// 20 to 23, the last two with Leaf and without.
fn hypervisor(page: u64) -> Vec<Command> {
    let mut commands = vec![(0x20, 0)];
    for asid in [0, ASID, ASID + 1, ASID + 2] {
        let low = asid << 48;
        commands.push((0x21 | low, 0));
        commands.extend([(0x22 | low, page), (0x22 | low, page | 1)]);
    }
    commands.extend([(0x23, page), (0x23, page | 1)]);
    commands
}

/// Commands of every other code that removes rows, for VMID 0 and for another.
fn others() -> Vec<Command> {
    let mut commands = vec![(0x30, 0)];
    let (stream, asid) = (STREAM << 32, ASID << 48);
    for (vmid, leaf) in [(0, 0), (0, 1), (5 << 32, 0)] {
        commands.extend([(0x10 | vmid, 0), (0x28 | vmid, 0)]);
        for asid in [0, asid] {
            commands.push((0x11 | vmid | asid, 0));
            commands.push((0x12 | vmid | asid, PAGE | leaf));
        }
        commands.extend([0x13, 0x2A].map(|code| (code | vmid, PAGE | leaf)));
        commands.extend([(0x03 | stream, leaf), (0x05 | stream, leaf)]);
    }
    commands.extend([(0x04, 31), (0x06 | stream, 0)]);
    commands
}

/// T-05 once more, over bits and over addresses with ends that may be 2^64.
fn due([word, _, input, _]: Words, (low, high): Command, features: u64) -> bool {
    let (mark, global) = (word >> 11 & 3, word & 1 << 4 != 0);
    let asid = (word >> 32 ^ low >> 48) & 0xFFFF == 0;
    let wide = features & ASID16 == 0 && low >> 56 != 0;
    let first = u128::from(input);
    let end = first + (1 << (word >> 5 & 0x3F));
    let address = u128::from(high & !0xFFF);
    let here = (first..end).contains(&address) && (high & 1 == 0 || word & 1 << 3 != 0);
    !wide
        && match (low as u8, mark, features & E2H != 0) {
            (0x20, 1 | 2, _) => true,
            (0x21, 2, _) => asid && !global,
            (0x22 | 0x23, 1, false) | (0x23, 2, true) => here,
            (0x22, 2, true) => here && (asid || global),
            _ => false,
        }
}

const LAW: &str = "a command of the hypervisor's takes other rows than T-05 has it";

fn scoped(checker: &mut Checker, rows: &[Words], command: Command, features: u64) {
    let (gone, _) = taken(checker, rows, command, features);
    let right = rows.iter().map(|&row| due(row, command, features));
    let met = right.eq(gone);
    insist(checker, met, LAW, rows, (command, features));
}

const SPARED: &str = "marked rows make a difference to another command";

/// The same command over the same rows without the marked ones.
fn spared(checker: &mut Checker, rows: &[Words], command: Command, features: u64) {
    let unmarked = |row: &Words| match row[0] >> 11 & 3 {
        0 => *row,
        _ => [0; 4],
    };
    let others: Vec<Words> = rows.iter().map(unmarked).collect();
    let alone = taken(checker, &others, command, features);
    let met = taken(checker, rows, command, features) == alone;
    insist(checker, met, SPARED, rows, (command, features));
}

/// Each upper bit alone and all of them, over rows of the whole ASID and of its
/// lower bits, global ones and those without ASIDs.
fn wide(checker: &mut Checker) {
    for upper in (8..16).map(|bit| 1 << bit).chain([0xFF00]) {
        let of = |asid| Reach {
            asid,
            ..first(12, PAGE)
        };
        let mut rows = own(12, PAGE);
        rows.push(marked(of(ASID | upper).page(PAGE, WRITE_BACK), EL2_E2H));
        rows.push(marked(of(ASID | upper).table(), EL2_E2H));
        let low = (ASID | upper) << 48;
        for command in [(0x21 | low, 0), (0x22 | low, PAGE), (0x22 | low, PAGE | 1)] {
            for features in SETTINGS {
                scoped(checker, &rows, command, features);
                scoped(checker, &rows, command, features & !ASID16);
            }
        }
    }
}

/// Rows that differ in one bit, and commands for each of them.
fn identifiers(checker: &mut Checker) {
    let asids = family(ASID, 0..16);
    let of = |&asid| {
        let reach = Reach {
            asid,
            ..first(12, PAGE)
        };
        marked(reach.page(PAGE, WRITE_BACK), EL2_E2H)
    };
    let spaces: Vec<Words> = asids.iter().map(of).collect();
    for (asid, features) in asids
        .iter()
        .flat_map(|asid| SETTINGS.map(|set| (asid, set)))
    {
        let low = asid << 48;
        scoped(checker, &spaces, (0x21 | low, 0), features);
        scoped(checker, &spaces, (0x22 | low, PAGE), features);
    }
    let pages = family(PAGE, 12..52);
    let upper = pages.iter().map(|page| page | UPPER);
    let rows: Vec<Words> = pages
        .iter()
        .copied()
        .chain(upper)
        .flat_map(|page| MARKS.map(|mark| marked(first(12, page).page(0, WRITE_BACK), mark)))
        .collect();
    for page in family(PAGE, 12..64).into_iter().chain([PAGE | UPPER]) {
        for features in SETTINGS {
            scoped(checker, &rows, (0x22 | ASID << 48, page), features);
            scoped(checker, &rows, (0x23, page), features);
        }
    }
}

/// 22 and 23 at both ends of a row, just outside, and in the other half.
fn around(checker: &mut Checker, span: u64, page: u64) {
    let other = page ^ UPPER;
    let mut rows = own(span, page);
    rows.extend(MARKS.map(|mark| marked(first(span, other).page(0, WRITE_BACK), mark)));
    let last = page + ((1 << span) - 1);
    let near = [
        page,
        last,
        page.wrapping_sub(1),
        last.wrapping_add(1),
        other,
        page ^ 1 << 52,
    ];
    for (address, features) in near
        .into_iter()
        .flat_map(|near| SETTINGS.map(|set| (near, set)))
    {
        let address = address >> 12 << 12;
        scoped(checker, &rows, (0x22 | ASID << 48, address), features);
        scoped(checker, &rows, (0x23, address | 1), features);
    }
}
