//! What document 02 asks of the check, with words and bytes written out; this holds the
//! model to the papers as well as the unit.

use super::{bytes, call};
use crate::call::Reply;
use crate::checker::Checker;
use crate::generate::commands::Command;

/// Features: S1P, S2P, ASID16, VMID16, Hyp, RIL and DPT; without RIL; without Hyp; without
/// DPT; none.
const ALL: u64 = 0x7F;
const NO_RIL: u64 = 0x5F;
const NO_HYP: u64 = 0x6F;
const NO_DPT: u64 = 0x3F;
const NONE: u64 = 0;

pub fn cases(checker: &mut Checker) {
    checker.phase("document 02's check of a batch");
    yes(checker);
    rows(checker);
    unqualified(checker);
    refused(checker);
    controls(checker);
}

/// LOG2SIZE 2, RD 1, WR 3, enabled.
const CONTROL: u64 = 0x000A_0000_0030_0001;
/// Pages of VMID 5 and ASID 0x12 at 0x1000, 0x2000 and 0x3000; the same VMID with a global
/// row at 0x4000; stage 2 of the VMID at 0x1000; a table row at 0x5000.
const KEPT: [u64; 25] = [
    CONTROL,
    0x000F_0012_0005_018D,
    0,
    0x1000,
    0x9000,
    0x000F_0012_0005_018D,
    0,
    0x2000,
    0xA000,
    0x000F_0012_0005_018D,
    0,
    0x3000,
    0xB000,
    0x000F_0000_0005_019D,
    0,
    0x4000,
    0xC000,
    0x000F_0000_0005_018F,
    0,
    0x1000,
    0xD000,
    0x0000_0012_0005_0185,
    0,
    0x5000,
    0,
];
/// Regions of 4KB at 0x1000, last-level, and of 16KB at 0x4000, not last-level; then an
/// empty row.
const TABLE: [u64; 6] = [3, 0x1000, 5, 0x4000, 0, 0x77];

const LAW: &str = "a case of the check isn't met";

/// The number and the first three words that are to come of it.
fn is(
    checker: &mut Checker,
    (kept, table): (&[u64], &[u64]),
    [original, proposed]: [&[u8]; 2],
    features: u64,
    (number, [w0, w1, w2]): (u64, [u64; 3]),
) {
    let (mut after, mut left) = (kept.to_vec(), table.to_vec());
    let call = call(original, proposed, features);
    let reply = checker.both(&mut after, &mut left, call);
    let answer = [w0, w1, w2, 0, 0, 0, 0, 0];
    let met = reply == Reply { number, answer } && after == kept && left == table;
    checker.insist(met, LAW, kept, call, (reply, &after));
}

fn says(
    checker: &mut Checker,
    original: &[Command],
    proposed: &[Command],
    features: u64,
    words: [u64; 3],
) {
    let (original, proposed) = (bytes(original), bytes(proposed));
    is(
        checker,
        (&KEPT, &TABLE),
        [&original, &proposed],
        features,
        (0, words),
    );
}

/// Code 12 for VMID 5, ASID 0x12 and the address.
fn page(address: u64) -> Command {
    (0x0012_0005_0000_0012, address)
}

/// Three pages from 0x1000 on in one: NUM 2, SCALE 0, TG 1.
const THREE: Command = (0x0012_0005_0000_2012, 0x1400);
/// Four of them: NUM 3; or NUM 1, SCALE 1.
const FOUR: Command = (0x0012_0005_0000_3012, 0x1400);
const TWICE_TWO: Command = (0x0012_0005_0010_1012, 0x1400);

const YES: [u64; 3] = [0, 0, 0];

fn yes(checker: &mut Checker) {
    let three = [page(0x1000), page(0x2000), page(0x3000)];
    let backward = [page(0x3000), page(0x2000), page(0x1000)];
    says(checker, &[], &[], ALL, YES);
    says(checker, &[], &[], NONE, YES);
    says(checker, &three, &three, ALL, YES);
    says(checker, &three, &backward, ALL, YES);
    says(checker, &three, &[three, backward].concat(), ALL, YES);
    says(checker, &three, &[THREE], ALL, YES);
    says(checker, &[THREE], &three, ALL, YES);
    says(checker, &[THREE, page(0x4000)], &[FOUR], ALL, YES);
    says(checker, &[FOUR], &[TWICE_TWO], ALL, YES);
    // A page that no row has, another VMID, and a SIZE that is Reserved, remove nothing.
    let nothing = [page(0x6000), (0x0000_0006_0000_0010, 0), (0x73, 0xA00)];
    says(checker, &nothing, &[], ALL, YES);
    says(checker, &[], &nothing, ALL, YES);
    // Without ASID16 this ASID is too wide: legal, and after nothing.
    says(checker, &[(0x1012_0005_0000_0011, 0)], &[], 0x7B, YES);
    // All of stage 1 and 2, and all regions, in two ways.
    says(
        checker,
        &[(0x30, 0)],
        &[(0x0000_0005_0000_0028, 0)],
        ALL,
        YES,
    );
    says(checker, &[(0x70, 0)], &[(0x73, 0x600)], ALL, YES);
}

fn rows(checker: &mut Checker) {
    let three = [page(0x1000), page(0x2000), page(0x3000)];
    // One page too many takes the global row 3, one too few leaves row 2.
    says(checker, &three, &[FOUR], ALL, [2, 3, 0]);
    says(checker, &three, &three[..2], ALL, [2, 2, 0]);
    says(checker, &three, &three[1..], ALL, [2, 0, 0]);
    says(checker, &three, &[], ALL, [2, 0, 0]);
    says(checker, &[], &three, ALL, [2, 0, 0]);
    // Another ASID: row 0 is the lowest of three.
    says(
        checker,
        &three,
        &[(0x0013_0005_0000_2012, 0x1400)],
        ALL,
        [2, 0, 0],
    );
    // Stage 2 is row 4; 13 in the place of 12 takes no more here, 10 takes row 3, too.
    says(
        checker,
        &[(0x30, 0)],
        &[(0x0000_0005_0000_0010, 0)],
        ALL,
        [2, 4, 0],
    );
    let by_13 = (0x0000_0005_0000_2013, 0x1400);
    says(checker, &three, &[by_13], ALL, YES);
    says(
        checker,
        &three,
        &[(0x0000_0005_0000_0010, 0)],
        ALL,
        [2, 3, 0],
    );
    // Leaf spares the table row 5.
    says(checker, &[page(0x5000)], &[page(0x5001)], ALL, [2, 5, 0]);
    // Regions follow the six rows.
    says(checker, &[(0x70, 0)], &[], ALL, [2, 6, 0]);
    says(checker, &[(0x70, 0)], &[(0x73, 0x1000)], ALL, [2, 7, 0]);
    says(
        checker,
        &[(0x73, 0x4100)],
        &[(0x73, 0x4101)],
        ALL,
        [2, 7, 0],
    );
    says(checker, &[page(0x5000), (0x70, 0)], &[], ALL, [2, 5, 0]);
}

fn unqualified(checker: &mut Checker) {
    let good = [page(0x1000), page(0x2000)];
    for idle in [(0x01, 0), (0x02, 0), (0x46, 0), (0x1046, 0), (0x2046, 0)] {
        let (bad, early) = ([good[0], good[1], idle], [idle, good[0]]);
        says(checker, &bad, &good, ALL, [1, 0, 2]);
        says(checker, &good, &bad, ALL, [1, 1, 2]);
        says(checker, &bad, &bad, ALL, [1, 0, 2]);
        says(checker, &bad, &early, ALL, [1, 0, 2]);
        says(checker, &[idle], &[], ALL, [1, 0, 0]);
        says(checker, &[], &[idle], NONE, [1, 1, 0]);
    }
    // An unknown code, a feature that is absent, a Reserved bit, a bad parameter.
    for (bad, features) in [
        ((0x29, 0), ALL),
        ((0x20, 0), NO_HYP),
        ((0x70, 0), NO_DPT),
        ((0x30, 1), ALL),
        (THREE, NO_RIL),
        ((0x0012_0005_0000_0012, 0x1400), ALL),
        ((0x3046, 0), ALL),
    ] {
        says(checker, &[(0x30, 0), bad], &[], features, [1, 0, 1]);
        says(
            checker,
            &[(0x30, 0)],
            &[bad, (0x30, 0)],
            features,
            [1, 1, 0],
        );
    }
    says(checker, &[(0x20, 0)], &[], ALL, YES);
    says(checker, &[(0x10, 0)], &[], NONE, [1, 0, 0]);
    says(checker, &[(0x30, 0)], &[(0x30, 0)], NONE, YES);
}

fn refused(checker: &mut Checker) {
    let batch = bytes(&[page(0x1000), page(0x2000)]);
    let whole: &[u8] = &batch;
    let mut one = |kept: &[u64], table: &[u64], batches: [&[u8]; 2], number: u64, row: u64| {
        is(checker, (kept, table), batches, ALL, (number, [row, 0, 0]));
    };
    for length in [1, 8, 15, 17, 24, 31] {
        one(&KEPT, &TABLE, [&whole[..length], whole], 23, 0);
        one(&KEPT, &TABLE, [whole, &whole[..length]], 23, 0);
        one(&KEPT, &TABLE, [&[], &whole[..length]], 23, 0);
    }
    let mut kept = KEPT;
    kept[0] |= 1 << 62;
    one(&kept, &TABLE, [whole, whole], 2, 0);
    one(&kept, &TABLE, [&whole[..1], whole], 2, 0);
    let mut kept = KEPT;
    kept[9] |= 1 << 15;
    one(&kept, &TABLE, [whole, whole], 3, 2);
    one(&kept, &[3, 1], [&whole[..1], whole], 3, 2);
    one(&KEPT[..24], &TABLE, [whole, &whole[..1]], 1, 0);
    one(&KEPT, &[3, 0x1000, 3], [whole, &whole[..1]], 13, 0);
    one(&KEPT, &[], [whole, whole], 13, 0);
    one(&KEPT, &[0, 0, 3, 0x1001], [whole, &whole[..1]], 14, 1);
}

/// Off, held by an error, an interrupt pending, nothing waiting: all the same. The second
/// proposal takes more, of which row 1 is the lowest.
fn controls(checker: &mut Checker) {
    let (pages, all) = (bytes(&[page(0x1000)]), bytes(&[(0x30, 0)]));
    for word in [
        0x0008_0000_0030_0001,
        0x000A_8100_0030_0001,
        0x008A_0000_0030_0001,
        0x000A_0000_0010_0001,
        0,
    ] {
        let mut kept = KEPT;
        kept[0] = word;
        let lent = (&kept[..], &TABLE[..]);
        is(checker, lent, [&pages, &pages], ALL, (0, YES));
        is(checker, lent, [&pages, &all], ALL, (0, [2, 1, 0]));
    }
}
