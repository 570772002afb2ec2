//! Lengths and empty memories against what the unit refuses.

mod common;

use common::{one_row, put, ste};
use tahvenno::*;

#[test]
fn kept_memories_of_every_length() {
    for length in 0..=kept_words(layout::MAX_ROWS + 2) {
        let mut kept = vec![u64::MAX; length];
        let told = empty(&mut kept, 3, true);
        match told {
            Ok(()) => {
                let state = state(&kept).expect("an empty memory is accepted");
                assert_eq!(state, State { rd: 0, wr: 0, err: 0, active: false, enabled: true, used: 0 });
                assert_eq!(length, kept_words(rows(&kept).len()));
            }
            Err(_) => {
                assert_eq!(told.err(), state(&kept).err(), "{length} words");
                assert!(kept.iter().all(|&word| word == u64::MAX), "nothing is stored");
            }
        }
    }
}

#[test]
fn queues_of_every_size() {
    for log2size in 0..=u8::MAX {
        for enabled in [false, true] {
            let mut kept = one_row(0);
            let told = empty(&mut kept, log2size, enabled);
            if u64::from(log2size) <= layout::MAX_LOG2SIZE {
                let queue = vec![0; queue_bytes(log2size)];
                let end = if enabled { RunEnd::Empty } else { RunEnd::Off };
                let run = run(&mut kept, &mut [0; 2], &queue, Features::NONE, 0).expect("the queue has this length");
                assert_eq!((told, run.end), (Ok(()), end), "{log2size}");
            } else {
                assert_eq!((told, kept), (Err(Refusal::ControlWord), one_row(0)), "{log2size}");
            }
        }
    }
}

#[test]
fn second_tables_of_every_length() {
    for length in 0..=table_words(layout::MAX_REGIONS + 2) {
        let mut table = vec![u64::MAX; length];
        match empty_table(&mut table) {
            Ok(()) => {
                assert_eq!(check_batch(&one_row(0), &table, &[], &[], Features::NONE), Ok(Verdict::Same));
                assert_eq!(length, table_words(regions(&table).len()));
            }
            Err(refusal) => {
                let told = check_batch(&one_row(0), &table, &[], &[], Features::NONE);
                assert_eq!(told, Err(refusal), "{length} words");
            }
        }
    }
}

#[test]
fn recorders_of_every_length() {
    let mut taken = 0;
    for length in 0..=event_words(8) {
        let mut events = vec![u64::MAX; length];
        match empty_recorder(&mut events) {
            Ok(()) => {
                assert_eq!(event_read(&mut events), Err(Refusal::NoRecord));
                assert_eq!(length, event_words(EventIndex::parse(events[0]).expect("well formed").n));
                taken += 1;
            }
            refused => assert_eq!(event_acknowledge(&mut events), refused, "{length} words"),
        }
    }
    assert_eq!(taken, layout::MAX_EVENT_N + 1);
}

#[test]
fn a_single_row_is_emptied_by_its_first_word() {
    let mut kept = [0; kept_words(3)];
    for row in 0..3 {
        put(&mut kept, row, Row::CdBranch(CdBranch { stream: 9 + row as u32 }));
    }
    let before = kept;
    empty_row(&mut kept, 1).expect("there is such a row");
    let changed: Vec<usize> = (0..kept.len()).filter(|&word| kept[word] != before[word]).collect();
    assert_eq!((changed, kept[kept_words(1)]), (vec![kept_words(1)], 0));
    put(&mut kept, 1, ste(Config::Abort));
    assert_eq!(empty_row(&mut kept, 3), Err(Refusal::NoSuchRow));
    assert_eq!(empty_row(&mut [], 0), Err(Refusal::NoSuchRow));
    let mut table = [1; table_words(3)];
    empty_region(&mut table, 1).expect("there is such a row");
    assert_eq!(table, [1, 1, 0, 1, 1, 1]);
    assert_eq!(empty_region(&mut table, 3), Err(Refusal::NoSuchRow));
}
