//! A run at the limits cut to fewer rows or fewer commands: what each of them costs.

use crate::cases::{Case, Lent, Size, Work};

const ROWS: [usize; 7] = [1, 8, 32, 128, 256, 512, 1000];
/// Commands as powers of two. All of them are in `ROWS`' cases already.
const COMMANDS: [u64; 5] = [0, 4, 6, 8, 10];
/// The rows beside which commands grow.
const BESIDE: usize = 128;

pub fn cases(whole: &Case) -> Vec<Case> {
    let log2size = whole.size.log2size;
    let by_rows = ROWS.iter().map(|&rows| Size { rows, log2size });
    let by_commands = COMMANDS.iter().map(|&log2size| Size {
        rows: BESIDE,
        log2size,
    });
    by_rows
        .chain(by_commands)
        .map(|size| cut(whole, size))
        .collect()
}

/// The first rows of the table, and WR behind the first commands; the queue itself stays.
fn cut(whole: &Case, size: Size) -> Case {
    let Work::Runs { queues, features } = &whole.work else {
        panic!("a run is cut");
    };
    let mut kept = whole.lent.kept[..1 + 4 * size.rows].to_vec();
    kept[0] = kept[0] & !(0xF_FFFF << 20) | (size.commands() as u64) << 20;
    let table = whole.lent.table.clone();
    Case {
        size,
        lent: Lent { kept, table },
        work: Work::Runs {
            queues: queues.clone(),
            features: *features,
        },
        ..*whole
    }
}
