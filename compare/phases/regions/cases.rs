//! Document 02's sentences about the device permission table and those of Arm's 4.6,
//! with words and answers written out; they hold the model to the papers as well as the
//! unit.

use crate::call::Call;
use crate::checker::Checker;
use crate::generate::commands::Command;
use crate::generate::regions::Pair;
use crate::limits::REGIONS;

/// Word 0 of regions: of 4KB, last-level and not; of 16KB, 64KB, 2MB, 32MB, 512MB, 1GB,
/// 16GB, 64GB and 512GB, last-level.
const PAGE: u64 = 0b000011;
const TABLE: u64 = 0b000001;
const SIZES: [(u64, u64); 10] = [
    (0b000011, 0x1000),
    (0b000111, 0x4000),
    (0b001011, 0x1_0000),
    (0b001111, 0x20_0000),
    (0b010011, 0x200_0000),
    (0b010111, 0x2000_0000),
    (0b011011, 0x4000_0000),
    (0b011111, 0x4_0000_0000),
    (0b100011, 0x10_0000_0000),
    (0b100111, 0x80_0000_0000),
];

/// The fields of 73, in the high word.
const LEAF: u64 = 1;
const SIZE: u64 = 1 << 8;

/// Features: S1P, S2P, ASID16, VMID16, Hyp, RIL and DPT; all but DPT; DPT alone.
const ALL: u64 = 0x7F;
const NO_DPT: u64 = 0xFFFF_FFFF_FFFF_FFBF;
const DPT: u64 = 0x40;

/// CMDQEN, a queue of one slot, one command waiting.
const ONE: u64 = 1 << 49 | 1 << 20;
/// The last page below 2^52.
const LAST: u64 = 0x000F_FFFF_FFFF_F000;

pub fn cases(checker: &mut Checker) {
    checker.phase("document 02's device permission table");
    legal(checker);
    all(checker);
    by_size(checker);
    larger(checker);
    unaligned(checker);
    reserved_size(checker);
    above(checker);
    leaf(checker);
    formed(checker);
    refused(checker);
    filled(checker);
    counted(checker);
    ordered(checker);
}

const LAW: &str = "a case of the second table isn't met";

/// One call, the number and the first answer words that are due, and the second table
/// that it leaves.
fn expect(
    checker: &mut Checker,
    (before, table): (&[u64], &[u64]),
    call: Call,
    (number, words): (u64, &[u64]),
    left: &[u64],
) {
    let (mut kept, mut after) = (before.to_vec(), table.to_vec());
    let reply = checker.both(&mut kept, &mut after, call);
    let met = reply.number == number && reply.answer.starts_with(words) && after == left;
    checker.insist(met, LAW, before, call, (reply, &kept));
}

fn queue(commands: &[Command]) -> Vec<u8> {
    let words = commands.iter().flat_map(|&(low, high)| [low, high]);
    words.flat_map(u64::to_le_bytes).collect()
}

/// A command alone over the regions: which of them are taken.
fn takes(checker: &mut Checker, rows: &[Pair], command: Command, gone: &[usize]) {
    let mut left = rows.to_vec();
    gone.iter().for_each(|&row| left[row][0] = 0);
    let removed = gone.len() as u64;
    let queue = queue(&[command]);
    let call = Call::Run {
        queue: &queue,
        features: ALL,
        allowance: u64::MAX,
    };
    let words = [2, 1, removed + 1, removed, 0, 0, 0, 0];
    let kept = [ONE, 0, 0, 0, 0];
    expect(
        checker,
        (&kept, &rows.concat()),
        call,
        (0, &words),
        &left.concat(),
    );
}

/// A command alone over a page: legal, or the reason.
fn told(checker: &mut Checker, command: Command, features: u64, reason: u64) {
    let words = match reason {
        0 => [2, 1, 1, 0, 0, 0, 0, 0],
        _ => [3, 0, 1, 0, 0, reason, 0, 0],
    };
    let queue = queue(&[command]);
    let call = Call::Run {
        queue: &queue,
        features,
        allowance: u64::MAX,
    };
    // At 2^51, and empty, so that nothing is removed by those that are legal.
    let table = [0, 1 << 51];
    expect(
        checker,
        (&[ONE, 0, 0, 0, 0], &table),
        call,
        (0, &words),
        &table,
    );
}

/// "Without DPT both codes stay illegal"; every other bit is Reserved.
fn legal(checker: &mut Checker) {
    for code in [0x70, 0x73] {
        told(checker, (code, 0), DPT, 0);
        told(checker, (code, 0), u64::MAX, 0);
        told(checker, (code, 0), NO_DPT, 2);
        told(checker, (code, 0), 0, 2);
        // A missing feature comes before a Reserved bit.
        told(checker, (code | 1 << 8, 0), NO_DPT, 2);
        for bit in 8..64 {
            told(checker, (code | 1 << bit, 0), ALL, 3);
        }
    }
    for bit in 0..64 {
        told(checker, (0x70, 1 << bit), ALL, 3);
        let named = matches!(bit, 0 | 8..=11 | 12..=55);
        told(checker, (0x73, 1 << bit), ALL, if named { 0 } else { 3 });
    }
    told(checker, (0x73, 0x00FF_FFFF_FFFF_FF01), ALL, 0);
    told(checker, (0x73, 0x01FF_FFFF_FFFF_FF01), ALL, 3);
    for code in [0x71, 0x72, 0x74, 0x6F] {
        told(checker, (code, 0), ALL, 1);
    }
}

/// "Removes all cached DPT information", whatever its size, level and place.
fn all(checker: &mut Checker) {
    let mut rows: Vec<Pair> = SIZES.map(|(word, _)| [word, 0]).to_vec();
    rows.extend(SIZES.map(|(word, size)| [word & !2, (1 << 52) - size]));
    let every: Vec<usize> = (0..rows.len()).collect();
    takes(checker, &rows, (0x70, 0), &every);
    takes(checker, &[[0, 7], [PAGE, 0], [0, 0]], (0x70, 0), &[1]);
    takes(checker, &[[0, u64::MAX]], (0x70, 0), &[]);
}

/// Each size: the first and the last page of the region go, those beside it stay.
fn by_size(checker: &mut Checker) {
    for (code, (_, size)) in SIZES.into_iter().enumerate() {
        for start in [3 << 39, 5 << 39] {
            let rows = [
                [PAGE, start - 0x1000],
                [PAGE, start],
                [PAGE, start + size - 0x1000],
                [PAGE, start + size],
                [TABLE, start],
            ];
            let high = start | code as u64 * SIZE;
            takes(checker, &rows, (0x73, high), &[1, 2, 4]);
        }
    }
    takes(checker, &[[PAGE, 0], [PAGE, LAST]], (0x73, 0), &[0]);
    takes(checker, &[[PAGE, 0], [PAGE, LAST]], (0x73, LAST), &[1]);
    // The last 512GB of the 52 bits.
    let last = 0x000F_FF80_0000_0000;
    let rows = [[PAGE, LAST], [PAGE, last - 0x1000], [0b100111, last]];
    takes(checker, &rows, (0x73, last | 9 * SIZE), &[0, 2]);
}

/// "A row larger than SIZE stays", though it starts there or holds the address; one of
/// the same size goes, and smaller ones do.
fn larger(checker: &mut Checker) {
    let rows: Vec<Pair> = SIZES.map(|(word, _)| [word, 7 << 39]).to_vec();
    for code in 0..SIZES.len() {
        let gone: Vec<usize> = (0..=code).collect();
        let high = 7 << 39 | code as u64 * SIZE;
        takes(checker, &rows, (0x73, high), &gone);
    }
    takes(checker, &[[0b000111, 0x4000]], (0x73, 0x5000), &[]);
    takes(checker, &[[0b100111, 0]], (0x73, 8 * SIZE), &[]);
    takes(checker, &[[0b100111, 0]], (0x73, 9 * SIZE), &[0]);
}

/// "An unaligned address is legal and removes nothing".
fn unaligned(checker: &mut Checker) {
    let rows: Vec<Pair> = SIZES.map(|(word, _)| [word, 0]).to_vec();
    for (code, (_, size)) in SIZES.into_iter().enumerate().skip(1) {
        for address in [0x1000, size / 2, size - 0x1000, 3 * size + 0x1000] {
            let high = address | code as u64 * SIZE;
            takes(checker, &rows, (0x73, high), &[]);
            takes(checker, &[[PAGE, address]], (0x73, high), &[]);
        }
    }
    takes(checker, &[[PAGE, 0x2000]], (0x73, 0x2000 | SIZE), &[]);
    takes(checker, &[[PAGE, 0x2000]], (0x73, SIZE), &[0]);
}

/// "A Reserved SIZE is legal and removes nothing".
fn reserved_size(checker: &mut Checker) {
    let rows: Vec<Pair> = SIZES.map(|(word, _)| [word, 0]).to_vec();
    for code in 10..16 {
        for leaf in [0, LEAF] {
            takes(checker, &rows, (0x73, code * SIZE | leaf), &[]);
            takes(checker, &rows, (0x73, 0x1000 | code * SIZE | leaf), &[]);
        }
    }
}

/// "Address bits 55:52 are treated as 0".
fn above(checker: &mut Checker) {
    for bits in 0..16 {
        let rows = [[PAGE, 0x3000], [PAGE, 0x2000], [PAGE, LAST]];
        takes(checker, &rows, (0x73, bits << 52 | 0x3000), &[0]);
        takes(checker, &rows, (0x73, bits << 52 | LAST), &[2]);
        takes(checker, &rows, (0x73, bits << 52 | SIZE), &[0, 1]);
    }
}

/// "With Leaf 1 one not last-level" stays.
fn leaf(checker: &mut Checker) {
    for (code, (word, _)) in SIZES.into_iter().enumerate() {
        let rows = [[word & !2, 0], [word, 0]];
        let high = code as u64 * SIZE;
        takes(checker, &rows, (0x73, high), &[0, 1]);
        takes(checker, &rows, (0x73, high | LEAF), &[1]);
    }
}

/// A run that finds nothing to do over such a row.
fn row(checker: &mut Checker, words: Pair, good: bool) {
    let table = [[PAGE, 0], words].concat();
    let queue = queue(&[(0x46, 0)]);
    let call = Call::Run {
        queue: &queue,
        features: 0,
        allowance: u64::MAX,
    };
    let due: (u64, &[u64]) = match good {
        true => (0, &[2, 1, 1, 0]),
        false => (14, &[1, 0, 0, 0, 0, 0, 0, 0]),
    };
    expect(checker, (&[ONE, 0, 0, 0, 0], &table), call, due, &table);
    let room = [[PAGE, 0], [0, 9]].concat();
    let fill = Call::TableFill {
        row: 1,
        words,
        allowance: 2,
    };
    let filled = [[PAGE, 0], words].concat();
    match good && words[0] != 0 {
        true => expect(
            checker,
            (&[0, 0, 0, 0, 0], &room),
            fill,
            (0, &[0, 2]),
            &filled,
        ),
        false => expect(checker, (&[0, 0, 0, 0, 0], &room), fill, (9, &[0]), &room),
    }
}

/// Both low bits, the ten sizes and the bits above them; bases at their width and alignment.
fn formed(checker: &mut Checker) {
    for (word, size) in SIZES {
        for base in [0, size, (1 << 52) - size] {
            row(checker, [word, base], true);
            row(checker, [word & !2, base], true);
            row(checker, [word & !1, base], false);
        }
        for base in [
            1,
            0x800,
            size / 2,
            size + 1,
            1 << 52,
            (1 << 52) + size,
            1 << 63,
        ] {
            row(checker, [word, base], false);
        }
        for bit in 6..64 {
            row(checker, [word | 1 << bit, 0], false);
        }
    }
    for code in 10..16 {
        row(checker, [PAGE | code << 2, 0], false);
        row(checker, [TABLE | code << 2, 0], false);
    }
    // Empty is as in document 01.
    for base in [0, 1, 1 << 52, u64::MAX] {
        row(checker, [0, base], true);
    }
    row(checker, [2, 0], false);
    row(checker, [1 << 63, 0], false);
}

/// 13 and 14, "tried after 3"; the lowest bad row is named.
fn refused(checker: &mut Checker) {
    let most = 2 * REGIONS as usize;
    let queue = queue(&[(0x46, 0)]);
    let run = Call::Run {
        queue: &queue,
        features: ALL,
        allowance: u64::MAX,
    };
    let fill = Call::TableFill {
        row: 0,
        words: [PAGE, 0],
        allowance: 0,
    };
    let misfit = Call::Run {
        queue: &queue[1..],
        features: ALL,
        allowance: u64::MAX,
    };
    let kept = [ONE, 0, 0, 0, 0];
    for length in [0, 1, 3, 5, most - 1, most + 1, most + 2, 2 * most] {
        let table = vec![2; length];
        for call in [run, fill, misfit] {
            expect(checker, (&kept, &table), call, (13, &[0]), &table);
            expect(checker, (&kept[..4], &table), call, (1, &[0]), &table);
            let control = [1 << 63, 0, 0, 0, 0];
            expect(checker, (&control, &table), call, (2, &[0]), &table);
            let row = [ONE, 2, 0, 0, 0];
            expect(checker, (&row, &table), call, (3, &[0]), &table);
        }
    }
    for length in [2, 4, most - 2, most] {
        let table = vec![0; length];
        expect(checker, (&kept, &table), run, (0, &[2, 1, 1]), &table);
    }
    let table = [PAGE, 0, 0, 5, PAGE, 1, 2, 0];
    for call in [run, fill, misfit] {
        expect(checker, (&kept, &table), call, (14, &[2]), &table);
        let row = [ONE, 2, 0, 0, 0];
        expect(checker, (&row, &table), call, (3, &[0]), &table);
    }
    expect(checker, (&kept, &[0, 0]), misfit, (4, &[0]), &[0, 0]);
}

/// The base is stored before word 0; refusals 7 to 9 as for kept rows.
fn filled(checker: &mut Checker) {
    let words = [PAGE, 0x7000];
    let kept = [0, 0, 0, 0, 0];
    let fill = |row, words, allowance| Call::TableFill {
        row,
        words,
        allowance,
    };
    let room = [0, 5, PAGE, 0, 0, 6];
    let base = [0, 0x7000, PAGE, 0, 0, 6];
    let full = [PAGE, 0x7000, PAGE, 0, 0, 6];
    for (allowance, words_told, left) in [
        (0, [1, 0], room),
        (1, [1, 1], base),
        (2, [0, 2], full),
        (3, [0, 2], full),
        (u64::MAX, [0, 2], full),
    ] {
        let call = fill(0, words, allowance);
        expect(checker, (&kept, &room), call, (0, &words_told), &left);
        // It starts from its first store every time.
        expect(
            checker,
            (&kept, &base),
            call,
            (0, &words_told),
            &left_of(base, left),
        );
        expect(checker, (&kept, &full), call, (8, &[0]), &full);
    }
    for row in [3, 4, 1 << 32, 1 << 62, 1 << 63, u64::MAX] {
        expect(
            checker,
            (&kept, &room),
            fill(row, [2, 2], 2),
            (7, &[0]),
            &room,
        );
    }
    expect(
        checker,
        (&kept, &room),
        fill(1, [2, 2], 2),
        (8, &[0]),
        &room,
    );
    expect(
        checker,
        (&kept, &room),
        fill(0, [0, 0], 2),
        (9, &[0]),
        &room,
    );
    expect(
        checker,
        (&kept, &room),
        fill(0, [2, 2], 0),
        (9, &[0]),
        &room,
    );
    // The same region once more is no reason to refuse.
    let twice = [PAGE, 0x7000, PAGE, 0, PAGE, 0x7000];
    expect(
        checker,
        (&kept, &full),
        fill(2, words, 2),
        (0, &[0, 2]),
        &twice,
    );
}

/// What a fill leaves of a table whose base it had stored before.
fn left_of(base: [u64; 6], left: [u64; 6]) -> [u64; 6] {
    match left[0] {
        0 => base,
        _ => left,
    }
}

/// Stores and removed rows count regions too: 70, then 30, then a
/// CMD_SYNC over a stage 1 row and two regions.
fn counted(checker: &mut Checker) {
    let kept = [1 << 49 | 3 << 20 | 2 << 50, 0x185, 0, 0, 0];
    let queue = queue(&[(0x70, 0), (0x30, 0), (0x1046, 0), (0, 0)]);
    let run = |allowance| Call::Run {
        queue: &queue,
        features: ALL,
        allowance,
    };
    let table = [PAGE, 0, TABLE, 0x1000];
    let (one, none) = ([0, 0, TABLE, 0x1000], [0, 0, 0, 0x1000]);
    for (allowance, words, left) in [
        (0, [4, 0, 0, 0, 0], table),
        (1, [4, 0, 1, 1, 0], one),
        (2, [4, 0, 2, 2, 0], none),
        (3, [4, 1, 3, 2, 0], none),
        (4, [4, 1, 4, 3, 0], none),
        (5, [4, 2, 5, 3, 0], none),
        (6, [2, 3, 6, 3, 1], none),
    ] {
        expect(checker, (&kept, &table), run(allowance), (0, &words), &left);
    }
}

/// Regions go before RD moves, as kept rows do.
fn ordered(checker: &mut Checker) {
    let queue = queue(&[(0x70, 0)]);
    let table = [PAGE, 0];
    for (allowance, rd, left) in [(0, 0, [PAGE, 0]), (1, 0, [0, 0]), (2, 1, [0, 0])] {
        let call = Call::Run {
            queue: &queue,
            features: DPT,
            allowance,
        };
        let (mut kept, mut after) = ([ONE, 0, 0, 0, 0], table);
        let reply = checker.both(&mut kept, &mut after, call);
        let met = kept[0] & 0xF_FFFF == rd && after == left;
        checker.insist(met, LAW, &[ONE, 0, 0, 0, 0], call, (reply, &kept));
    }
}
