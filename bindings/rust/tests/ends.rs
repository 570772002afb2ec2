//! Each end, reason, verdict and outcome, and the counts beside them.

mod common;

use common::{bytes_of, one_row, put, ste, Random, ACCESS, ONE_REGION, PAGE};
use tahvenno::*;

/// A memory with a queue of four slots and the commands in it, of one stream with a page.
fn with_queue(commands: &[[u8; 16]]) -> ([u64; kept_words(2)], Vec<u8>) {
    let mut kept = [0; kept_words(2)];
    empty(&mut kept, 2, true).expect("an empty memory");
    put(&mut kept, 0, ste(Config::Stage2));
    put(&mut kept, 1, Row::Stage2(PAGE));
    doorbell(&mut kept, commands.len() as u32).expect("they fit");
    let mut queue = commands.concat();
    queue.resize(queue_bytes(2), 0);
    (kept, queue)
}

fn slot(command: Command) -> [u8; 16] {
    bytes_of(&[command]).try_into().expect("a slot")
}

fn go(kept: &mut [u64], queue: &[u8], features: Features, allowance: u64) -> Run {
    run(kept, &mut ONE_REGION.clone(), queue, features, allowance).expect("a run")
}

#[test]
fn ends_of_a_run() {
    let sync = slot(Command::Sync { signal: Signal::Interrupt });
    let (mut kept, queue) = with_queue(&[slot(Command::TlbiNsnhAll), sync, sync]);
    let nothing = Run { end: RunEnd::Off, consumed: 0, stores: 0, removed: 0, interrupts: 0 };
    disable(&mut kept).expect("a store");
    assert_eq!(go(&mut kept, &queue, Features::NONE, 9), nothing);
    enable(&mut kept).expect("a store");
    assert_eq!(go(&mut kept, &queue, Features::NONE, 0), Run { end: RunEnd::Cut, ..nothing });
    let cut = Run { end: RunEnd::Cut, consumed: 2, stores: 3, removed: 1, interrupts: 1 };
    assert_eq!(go(&mut kept, &queue, Features::NONE, 3), cut);
    assert!(Control::parse(kept[0]).expect("well formed").pending);
    let rest = Run { end: RunEnd::Empty, consumed: 1, stores: 1, removed: 0, interrupts: 1 };
    assert_eq!(go(&mut kept, &queue, Features::NONE, 3), rest);
    assert_eq!(go(&mut kept, &queue, Features::NONE, 3), Run { end: RunEnd::Empty, ..nothing });
}

#[test]
fn reasons() {
    let mut reserved = slot(Command::TlbiNsnhAll);
    reserved[15] = 1;
    for (reason, illegal) in [
        (Reason::UnknownCode, [0xFF; 16]),
        (Reason::FeatureAbsent, slot(Command::CfgiCdAll { stream: 0 })),
        (Reason::ReservedBit, reserved),
        (Reason::BadParameter, (0x3046u128).to_le_bytes()),
    ] {
        let (mut kept, queue) = with_queue(&[slot(Command::PrefetchAddr), slot(Command::PrefetchConfig), illegal]);
        let raised = Run { end: RunEnd::Raised { reason, slot: 2 }, consumed: 2, stores: 3, removed: 0, interrupts: 0 };
        assert_eq!(go(&mut kept, &queue, Features::NONE, 9), raised);
        let told = state(&kept).expect("a state");
        assert_eq!(told, State { rd: 2, wr: 3, err: 1, active: true, enabled: true, used: 2 });
        assert_eq!(go(&mut kept, &queue, Features::NONE, 9).end, RunEnd::Held);
        acknowledge(&mut kept).expect("an error is active");
        assert!(!state(&kept).expect("a state").active);
    }
}

#[test]
fn ends_of_fills() {
    let words = Row::Stage2(PAGE).words().expect("a row");
    let region = Region { size: RegionSize::Kb16, base: 1 << 14, last_level: false }.words().expect("a region");
    for allowance in 0..6 {
        let (mut kept, mut table) = (one_row(0), ONE_REGION);
        let stores = allowance.min(FILL_STORES);
        let end = if stores == FILL_STORES { FillEnd::Filled } else { FillEnd::Cut };
        assert_eq!(fill(&mut kept, 0, &words, allowance), Ok(Fill { end, stores }));
        let stores = allowance.min(TABLE_FILL_STORES);
        let end = if stores == TABLE_FILL_STORES { FillEnd::Filled } else { FillEnd::Cut };
        assert_eq!(table_fill(&kept, &mut table, 0, &region, allowance), Ok(Fill { end, stores }));
        assert_eq!(table[0] != 0, end == FillEnd::Filled);
    }
}

#[test]
fn verdicts() {
    let (kept, _) = with_queue(&[]);
    let mut table = [0; table_words(3)];
    let region = Region { size: RegionSize::Kb4, base: 0, last_level: true }.words().expect("a region");
    table_fill(&kept, &mut table, 2, &region, TABLE_FILL_STORES).expect("an empty row");
    let judge = |original: &[u8], proposed: &[u8]| check_batch(&kept, &table, original, proposed, Features::ALL);
    let [all, dpt, sync] = [Command::TlbiNsnhAll, Command::DptiAll, Command::Sync { signal: Signal::None }];
    let (all, both) = (bytes_of(&[all]), bytes_of(&[all, dpt]));
    let page = bytes_of(&[Command::TlbiS2Ipa { vmid: 3, target: Target::at(PAGE.input) }]);
    assert_eq!(judge(&all, &page), Ok(Verdict::Same));
    assert_eq!(judge(&both, &page), Ok(Verdict::Differ(Place::Table(2))));
    assert_eq!(judge(&all, &[]), Ok(Verdict::Differ(Place::Kept(1))));
    let unfit = bytes_of(&[Command::DptiAll, Command::DptiAll, sync]);
    let (original, proposed) = (Batch::Original, Batch::Proposed);
    assert_eq!(judge(&unfit, &[0; 16]), Ok(Verdict::Unfit { batch: original, command: 2 }));
    assert_eq!(judge(&both, &unfit), Ok(Verdict::Unfit { batch: proposed, command: 2 }));
}

#[test]
fn ends_of_event_writes() {
    let mut events = [0; event_words(0)];
    empty_recorder(&mut events).expect("an empty recorder");
    let record = Record(std::array::from_fn(|place| place as u8 + 1));
    let mut write = |allowance| event_write(&mut events, &record, allowance).map(|told| (told.end, told.stores));
    assert_eq!(write(4), Ok((EventEnd::Cut, 4)));
    assert_eq!(write(9), Ok((EventEnd::Stored, layout::RECORD_STORES)));
    assert_eq!(write(0), Ok((EventEnd::Cut, 0)));
    assert_eq!(write(9), Ok((EventEnd::Dropped, 1)));
    assert_eq!(write(9), Ok((EventEnd::Dropped, 0)));
    assert!(EventIndex::parse(events[0]).expect("well formed").outstanding());
    assert_eq!(event_read(&mut events), Ok(record));
    assert_eq!((record.number(), record.stream()), (1, 0x08070605));
    assert_eq!(event_acknowledge(&mut events), Ok(()));
}

#[test]
fn outcomes() {
    let mut kept = [0; kept_words(4)];
    empty(&mut kept, 0, true).expect("an empty memory");
    assert_eq!(translate(&kept, &ACCESS), Ok(Outcome::Miss(Miss::Ste)));
    put(&mut kept, 0, ste(Config::Both));
    assert_eq!(translate(&kept, &ACCESS), Ok(Outcome::Miss(Miss::Cd)));
    put(&mut kept, 1, Row::Cd(Cd { stream: 5, substream: 0, asid: 9 }));
    assert_eq!(translate(&kept, &ACCESS), Ok(Outcome::Miss(Miss::Stage1)));
    let guest = Regime::Guest { vmid: 3, asid: 9, global: false };
    let hints = Hints::OUTER_RA | Hints::INNER_TR;
    let attributes = Attributes { sh: Shareability::Nsh, hints, ..ACCESS.attributes };
    let (input, output) = (0x1000, 0x2000);
    put(&mut kept, 2, Row::Stage1(Stage1 { regime: guest, span: 12, input, output, attributes }));
    assert_eq!(translate(&kept, &ACCESS), Ok(Outcome::Miss(Miss::Stage2)));
    put(&mut kept, 3, Row::Stage2(Stage2 { input: 0x2000, ..PAGE }));
    let attributes = Attributes { sh: Shareability::Ish, ..attributes };
    let (instruction, privileged) = (true, false);
    let asked = Access { instruction, ..ACCESS };
    let address = Outcome::Address { address: 0x8234, attributes, instruction, privileged };
    assert_eq!(translate(&kept, &asked), Ok(address));
    for other in [Access { stream: 6, ..ACCESS }, Access { substream: 1, ..ACCESS }, Access { address: 0, ..ACCESS }] {
        assert!(matches!(translate(&kept, &other), Ok(Outcome::Miss(_))), "{other:?}");
    }
    empty_row(&mut kept, 0).expect("there is such a row");
    put(&mut kept, 0, ste(Config::Abort));
    assert_eq!(translate(&kept, &ACCESS), Ok(Outcome::Abort));
}

/// Each part of an access is told apart: without stages and overrides it comes out as it went in, but for Device and memory that is
/// cached nowhere, which are outer shareable, and for writes, which are of data.
#[test]
fn bypass_keeps_the_parts_of_an_access() {
    let mut kept = one_row(0);
    put(&mut kept, 0, ste(Config::Bypass));
    let mut random = Random::new(15);
    for _ in 0..20_000 {
        let [write, instruction, privileged] = [(); 3].map(|_| random.flag());
        let (attributes, address, substream) = (random.attributes(), random.wide(64), random.wide(32) as u32);
        let access = Access { stream: 5, substream, address, write, instruction, privileged, attributes };
        let nowhere = matches!(attributes.memattr, MemAttr::Device(_) | MemAttr::NON_CACHEABLE);
        let sh = if nowhere { Shareability::Osh } else { attributes.sh };
        let attributes = Attributes { sh, ..attributes };
        let due = Outcome::Address { address, attributes, instruction: instruction && !write, privileged };
        assert_eq!(translate(&kept, &access), Ok(due), "{access:?}");
    }
}
