//! Each refusal, by a call that it is due to: its variant, what it names, its number, and that nothing was stored.

mod common;

use common::{one_row, put, ste, ACCESS, ONE_REGION, PAGE};
use std::cell::RefCell;
use tahvenno::*;

const ROW: [u64; 4] = [1, 0, 0, 0]; // an STE block with no span, which is ill formed

thread_local!(static SEEN: RefCell<Vec<u64>> = const { RefCell::new(Vec::new()) });

/// That a call was refused so.
#[track_caller]
fn due<T: std::fmt::Debug>(told: Result<T, Refusal>, refusal: Refusal, number: u64) {
    assert_eq!(told.err(), Some(refusal));
    assert_eq!(refusal.number(), number);
    SEEN.with_borrow_mut(|seen| seen.push(number));
}

/// One row in use, and one that is ill formed.
fn with_bad_row() -> [u64; kept_words(2)] {
    let mut kept = [0; kept_words(2)];
    empty(&mut kept, 0, true).expect("an empty memory");
    put(&mut kept, 0, ste(Config::Bypass));
    kept[kept_words(1)..].copy_from_slice(&ROW);
    kept
}

fn of_the_kept_memory() {
    let mut kept = one_row(0);
    due(state(&kept[..4]), Refusal::KeptLength, 1);
    due(state(&vec![0; kept_words(1001)]), Refusal::KeptLength, 1);
    kept[0] = 1 << 63;
    due(enable(&mut kept), Refusal::ControlWord, 2);
    let mut bad = with_bad_row();
    due(disable(&mut bad), Refusal::Row { row: 1 }, 3);
    assert_eq!(bad, with_bad_row());
}

fn of_the_queue() {
    let (mut kept, mut table) = (one_row(1), ONE_REGION);
    due(run(&mut kept, &mut table, &[0; 16], Features::ALL, 9), Refusal::QueueLength, 4);
    due(write_batch(&mut kept, &mut [0; 48], &[], Features::ALL), Refusal::QueueLength, 4);
    due(doorbell(&mut kept, 4), Refusal::WriteIndex, 5);
    due(doorbell(&mut kept, u32::MAX), Refusal::WriteIndex, 5);
    due(acknowledge(&mut kept), Refusal::NoError, 6);
    due(clear_pending(&mut kept), Refusal::NotPending, 12);
    assert_eq!(kept, one_row(1));
}

fn of_fills() {
    let (page, mut kept) = (Row::Stage2(PAGE).words().expect("a row"), [0; kept_words(2)]);
    due(fill(&mut kept, 2, &page, FILL_STORES), Refusal::NoSuchRow, 7);
    due(fill(&mut kept, usize::MAX, &page, FILL_STORES), Refusal::NoSuchRow, 7);
    put(&mut kept, 0, Row::Stage2(PAGE));
    due(fill(&mut kept, 0, &page, FILL_STORES), Refusal::RowInUse, 8);
    due(fill(&mut kept, 1, &ROW, FILL_STORES), Refusal::RowWords, 9);
    due(fill(&mut kept, 1, &[0; 4], FILL_STORES), Refusal::RowWords, 9);
    due(fill(&mut kept, 1, &page, FILL_STORES), Refusal::Double, 11);
    let hints = Attributes { hints: Hints::INNER_RA, ..Attributes::of(MemAttr::NON_CACHEABLE) };
    due(translate(&kept, &Access { attributes: hints, ..ACCESS }), Refusal::Attributes, 10);
}

fn of_the_second_table() {
    let (mut kept, mut table) = (one_row(0), [0, 0, 1 << 6, 0]);
    let region = Region { size: RegionSize::Kb4, base: 0, last_level: true }.words().expect("a region");
    due(table_fill(&kept, &mut table[..3], 0, &region, 2), Refusal::TableLength, 13);
    due(run(&mut kept, &mut [], &[0; 16], Features::ALL, 9), Refusal::TableLength, 13);
    due(table_fill(&kept, &mut table, 0, &region, 2), Refusal::TableRow { row: 1 }, 14);
    due(check_batch(&kept, &table, &[], &[], Features::ALL), Refusal::TableRow { row: 1 }, 14);
    table[2..].copy_from_slice(&region);
    due(table_fill(&kept, &mut table, 2, &region, 2), Refusal::NoSuchRow, 7);
    due(table_fill(&kept, &mut table, 1, &region, 2), Refusal::RowInUse, 8);
    due(table_fill(&kept, &mut table, 0, &[1 << 2, 0], 2), Refusal::RowWords, 9);
    due(check_batch(&kept, &table, &[0; 15], &[], Features::ALL), Refusal::BatchLength, 23);
    due(check_batch(&kept, &table, &[], &[0; 17], Features::ALL), Refusal::BatchLength, 23);
}

fn of_the_recorder() {
    let mut events = [0; event_words(1)];
    empty_recorder(&mut events).expect("an empty recorder");
    let record = Record::event(1, 2);
    due(event_write(&mut events[..8], &record, 5), Refusal::EventsLength, 15);
    due(event_read(&mut events), Refusal::NoRecord, 17);
    due(event_acknowledge(&mut events), Refusal::NoOverflow, 18);
    events[0] = 0; // an n of 0
    due(event_write(&mut events, &record, 5), Refusal::IndexWord, 16);
    due(event_read(&mut events), Refusal::IndexWord, 16);
    due(event_acknowledge(&mut events[..1]), Refusal::EventsLength, 15);
}

fn of_the_writers() {
    let all = Command::TlbiNsnhAll.words();
    let (s1p, wide) =
        (Command::CfgiCdAll { stream: 1 }.words(), Command::CfgiSteRange { stream: 1, range: 32 }.words());
    due(write_command(&mut [0; 15], &s1p, Features::NONE), Refusal::SlotLength, 19);
    due(write_command(&mut [0; 16], &s1p, Features::NONE), Refusal::FeatureAbsent { command: 0 }, 20);
    due(write_command(&mut [0; 16], &wide, Features::NONE), Refusal::Fields { command: 0 }, 21);
    let (mut kept, mut queue) = (one_row(1), [7; queue_bytes(1)]);
    let mut batch = |commands: &[[u64; 16]]| write_batch(&mut kept, &mut queue, commands, Features::NONE);
    due(batch(&[all, s1p, wide]), Refusal::FeatureAbsent { command: 1 }, 20);
    due(batch(&[all, all, wide, s1p]), Refusal::Fields { command: 2 }, 21);
    due(batch(&[all; 3]), Refusal::NoRoom, 22);
    assert_eq!((kept, queue), (one_row(1), [7; queue_bytes(1)]));
}

#[test]
fn each_occurs() {
    of_the_kept_memory();
    of_the_queue();
    of_fills();
    of_the_second_table();
    of_the_recorder();
    of_the_writers();
    let seen = SEEN.take();
    assert!((1..=23).all(|number| seen.contains(&number)), "{seen:?}");
}

/// Nothing is lent at all: pointers to nothing and lengths of 0.
#[test]
fn empty_slices_are_refused() {
    let (words, command) = (Row::Stage2(PAGE).words().expect("a row"), Command::TlbiNsnhAll.words());
    let length = Some(Refusal::KeptLength);
    assert_eq!(run(&mut [], &mut [], &[], Features::ALL, 1).err(), length);
    assert_eq!(fill(&mut [], 0, &words, 1).err(), length);
    assert_eq!(table_fill(&[], &mut [], 0, &[0; 2], 1).err(), length);
    assert_eq!(doorbell(&mut [], 0).err(), length);
    assert_eq!(acknowledge(&mut []).err(), length);
    assert_eq!(enable(&mut []).err(), length);
    assert_eq!(clear_pending(&mut []).err(), length);
    assert_eq!(translate(&[], &ACCESS).err(), length);
    assert_eq!(check_batch(&[], &[], &[], &[], Features::ALL).err(), length);
    assert_eq!(state(&[]).err(), length);
    assert_eq!(write_batch(&mut [], &mut [], &[], Features::ALL).err(), length);
    assert_eq!(write_command(&mut [], &command, Features::ALL), Err(Refusal::SlotLength));
    assert_eq!(event_write(&mut [], &Record::event(0, 0), 5).err(), Some(Refusal::EventsLength));
    assert_eq!(event_read(&mut []).err(), Some(Refusal::EventsLength));
    assert_eq!(event_acknowledge(&mut []).err(), Some(Refusal::EventsLength));
    let mut kept = one_row(0);
    assert_eq!(write_batch(&mut kept, &mut [0; 16], &[], Features::ALL), Ok(()));
    assert_eq!(check_batch(&kept, &ONE_REGION, &[], &[], Features::ALL), Ok(Verdict::Same));
}
