//! The control word and the index word as values against the unit.

mod common;

use common::{one_row, Random, ONE_REGION};
use tahvenno::*;

const ROUNDS: usize = 20_000;

/// Two indexes of a ring of 2^log2 slots, not too far apart.
fn indexes(random: &mut Random, log2: u8) -> (u32, u32) {
    let rd = random.wide(u32::from(log2) + 1) as u32;
    let some = random.below(1 << log2) as u32;
    let distance = random.pick(&[0, 1 << log2, some]);
    (rd, (rd + distance) & ((2 << log2) - 1))
}

fn control(random: &mut Random) -> Control {
    let log2size = random.below(13) as u8;
    let (rd, wr) = indexes(random, log2size);
    let [gerror, gerrorn, enabled, pending] = [(); 4].map(|_| random.flag());
    let err = if gerror == gerrorn { random.below(2) as u8 } else { 1 };
    Control { rd, wr, err, gerror, gerrorn, enabled, log2size, pending }
}

fn index(random: &mut Random) -> EventIndex {
    let n = random.below(8) as u8;
    let (rd, wr) = indexes(random, n);
    EventIndex { rd, wr, overflow: random.flag(), acknowledged: random.flag(), n }
}

/// Whether the unit takes the control word.
fn controls(word: u64) -> bool {
    let mut kept = one_row(0);
    kept[0] = word;
    match state(&kept) {
        Ok(_) => true,
        Err(Refusal::ControlWord) => false,
        other => panic!("{other:?} for {word:x}"),
    }
}

/// Whether the unit takes the index word, in a recorder of its own n if there is one.
fn indexed(word: u64) -> bool {
    let n = layout::get(layout::EVENT_N, word).min(layout::MAX_EVENT_N);
    let mut events = vec![0; event_words(n as u8)];
    events[0] = word;
    !matches!(event_read(&mut events), Err(Refusal::IndexWord))
}

#[test]
fn control_words_there_and_back() {
    let mut random = Random::new(9);
    for _ in 0..ROUNDS {
        let control = control(&mut random);
        let word = control.word().expect("every part is in its range");
        let low = u64::from(control.rd) | u64::from(control.wr) << 20 | u64::from(control.err) << 40;
        let flags = u64::from(control.gerror) << 47 | u64::from(control.gerrorn) << 48;
        let high = u64::from(control.enabled) << 49 | u64::from(control.log2size) << 50;
        assert_eq!(word, low | flags | high | u64::from(control.pending) << 55); // by the bit numbers of document 01
        assert!(controls(word), "{control:?}");
        assert_eq!(Control::parse(word), Ok(control));
    }
}

#[test]
fn a_run_consumes_what_waits_from_the_slot_on() {
    let mut random = Random::new(10);
    let all = Command::TlbiNsnhAll;
    for _ in 0..200 {
        let control = Control { err: 0, gerror: true, gerrorn: true, enabled: true, ..control(&mut random) };
        let (mut kept, mut table) = (one_row(0), ONE_REGION);
        let mut queue = common::bytes_of(&vec![all; 1 << control.log2size]);
        kept[0] = control.word().expect("every part is in its range");
        let whole = run(&mut kept.clone(), &mut table, &queue, Features::NONE, layout::MAX_STORES).expect("a run");
        assert_eq!((whole.end, whole.consumed), (RunEnd::Empty, control.waiting().into()), "{control:?}");
        queue.fill(0); // which is no command
        let raised = run(&mut kept, &mut table, &queue, Features::NONE, layout::MAX_STORES).expect("a run");
        if control.waiting() > 0 {
            let (reason, slot) = (Reason::UnknownCode, control.slot() as usize);
            assert_eq!(raised.end, RunEnd::Raised { reason, slot }, "{control:?}");
        }
    }
}

#[test]
fn index_words_there_and_back() {
    let mut random = Random::new(11);
    for _ in 0..ROUNDS {
        let index = index(&mut random);
        let word = index.word().expect("every part is in its range");
        let flags = u64::from(index.overflow) << 40 | u64::from(index.acknowledged) << 41;
        // by the bit numbers of document 02
        assert_eq!(word, u64::from(index.rd) | u64::from(index.wr) << 20 | flags | u64::from(index.n) << 42);
        assert!(indexed(word), "{index:?}");
        assert_eq!(EventIndex::parse(word), Ok(index));
        let mut events = vec![0; event_words(index.n)];
        events[0] = word;
        let waiting = (0..).take_while(|_| event_read(&mut events).is_ok()).count();
        assert_eq!(waiting, index.waiting() as usize, "{index:?}");
        assert_eq!(event_acknowledge(&mut events).is_ok(), index.outstanding(), "{index:?}");
    }
}

#[test]
fn words_parse_if_the_unit_takes_them() {
    let mut random = Random::new(12);
    let (mut taken, mut wrong) = ([0; 2], Vec::new());
    for _ in 0..5 * ROUNDS {
        let (one, another) = (1 << random.below(64), 1 << random.below(64));
        let flipped = random.pick(&[one, one | another]);
        let word = control(&mut random).word().expect("in range") ^ flipped;
        let parsed = Control::parse(word);
        assert_eq!(controls(word), parsed.is_ok(), "{word:x}: {parsed:?}");
        taken[0] += usize::from(parsed.is_ok());
        wrong.extend(parsed.map(|control| assert_eq!(control.word(), Ok(word))).err());

        let word = index(&mut random).word().expect("in range") ^ flipped;
        let parsed = EventIndex::parse(word);
        assert_eq!(indexed(word), parsed.is_ok(), "{word:x}: {parsed:?}");
        taken[1] += usize::from(parsed.is_ok());
        wrong.extend(parsed.map(|index| assert_eq!(index.word(), Ok(word))).err());
    }
    assert!(taken.iter().all(|&times| times > ROUNDS / 4), "{taken:?} words were taken");
    use FieldError::{Err, Log2size, Rd, Unnamed, Wr, N};
    for error in [Unnamed, Log2size, N, Rd, Wr, Err] {
        assert!(wrong.contains(&error), "{error:?} did not occur");
    }
}

/// Parts that no word has room for. What else is told of them means nothing, but it is told.
#[test]
fn parts_out_of_range_have_their_error() {
    let good = Control { log2size: 4, ..Control::default() };
    for (control, error) in [
        (Control { log2size: 13, ..good }, FieldError::Log2size),
        (Control { log2size: u8::MAX, ..good }, FieldError::Log2size),
        (Control { rd: 32, wr: 32, ..good }, FieldError::Rd),
        (Control { wr: 32, ..good }, FieldError::Wr),
        (Control { wr: 1 << 20, ..good }, FieldError::Wr),
        (Control { wr: 17, ..good }, FieldError::Wr),
        (Control { err: 2, ..good }, FieldError::Err),
        (Control { err: 129, ..good }, FieldError::Err),
        (Control { gerror: true, ..good }, FieldError::Err),
    ] {
        assert_eq!(control.word(), Err(error), "{control:?}");
        assert!(control.slot() <= control.rd, "{control:?}");
    }
    let good = EventIndex { n: 4, ..EventIndex::default() };
    for (index, error) in [
        (EventIndex { n: 8, ..good }, FieldError::N),
        (EventIndex { n: u8::MAX, ..good }, FieldError::N),
        (EventIndex { rd: 32, wr: 32, ..good }, FieldError::Rd),
        (EventIndex { wr: 1 << 20, ..good }, FieldError::Wr),
        (EventIndex { wr: 17, ..good }, FieldError::Wr),
    ] {
        assert_eq!(index.word(), Err(error), "{index:?}");
        assert!(index.waiting() <= index.wr.wrapping_sub(index.rd), "{index:?}");
    }
}
