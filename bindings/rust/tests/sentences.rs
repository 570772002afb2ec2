//! What is said of each value: something, of each something else, and with what it names.

mod common;

use common::ACCESS;
use std::collections::BTreeSet;
use std::fmt::Display;
use tahvenno::*;

#[track_caller]
fn distinct(values: impl IntoIterator<Item = impl Display>) {
    let said: Vec<String> = values.into_iter().map(|value| value.to_string()).collect();
    assert!(said.len() > 1 && said.iter().all(|sentence| !sentence.is_empty()), "{said:?}");
    assert_eq!(said.iter().collect::<BTreeSet<_>>().len(), said.len(), "{said:?}");
}

/// One of each, in the order of their numbers.
fn refusals() -> [Refusal; 23] {
    use Refusal::*;
    [
        KeptLength,
        ControlWord,
        Row { row: 71 },
        QueueLength,
        WriteIndex,
        NoError,
        NoSuchRow,
        RowInUse,
        RowWords,
        Attributes,
        Double,
        NotPending,
        TableLength,
        TableRow { row: 72 },
        EventsLength,
        IndexWord,
        NoRecord,
        NoOverflow,
        SlotLength,
        FeatureAbsent { command: 73 },
        Fields { command: 74 },
        NoRoom,
        BatchLength,
    ]
}

#[test]
fn of_refusals() {
    distinct(refusals());
    assert!(refusals().iter().map(Refusal::number).eq(1..=23));
    for (number, named) in [(3, "71"), (14, "72"), (20, "73"), (21, "74")] {
        let sentence = refusals()[number - 1].to_string();
        assert!(sentence.contains(named), "{sentence}");
    }
}

#[test]
fn of_ends_and_outcomes() {
    let raised = |slot| Reason::ALL.iter().map(move |&reason| RunEnd::Raised { reason, slot });
    distinct([RunEnd::Off, RunEnd::Held, RunEnd::Empty, RunEnd::Cut].into_iter().chain(raised(1)).chain(raised(2)));
    distinct(FillEnd::ALL);
    distinct(EventEnd::ALL);
    let unfit = |command| Batch::ALL.iter().map(move |&batch| Verdict::Unfit { batch, command });
    let differ = [Place::Kept(1), Place::Kept(2), Place::Table(1)].map(Verdict::Differ);
    distinct(differ.into_iter().chain(unfit(1)).chain(unfit(2)).chain([Verdict::Same]));
    let address = |address| {
        let (attributes, instruction, privileged) = (ACCESS.attributes, false, false);
        Outcome::Address { address, attributes, instruction, privileged }
    };
    let misses = Miss::ALL.iter().map(|&miss| Outcome::Miss(miss));
    distinct(misses.chain([Outcome::Abort, address(0x8234), address(0x9234)]));
}

#[test]
fn of_parts() {
    distinct(FieldError::ALL);
    distinct(Reason::ALL);
    distinct(Config::ALL);
    distinct(ShCfg::ALL);
    distinct(InstCfg::ALL);
    distinct(PrivCfg::ALL);
    distinct(RegionSize::ALL);
    distinct(Granule::ALL);
    distinct(Signal::ALL);
    distinct(Shareability::ALL);
    distinct([NoSuchNumber(1), NoSuchNumber(2)]);
    let normal = |outer| Cache::ALL.iter().map(move |&inner| MemAttr::Normal { outer, inner });
    let device = Device::ALL.iter().map(|&device| MemAttr::Device(device));
    distinct(device.chain(Cache::ALL.iter().flat_map(|&outer| normal(outer))));
}

/// Every number and the value that stands for it, there and back; the others stand for none.
#[test]
fn of_numbers() {
    fn known<T: TryFrom<u64> + Into<u64>>() -> Vec<u64> {
        let both = |number| T::try_from(number).ok().map(|value| (number, value.into()));
        let known: Vec<(u64, u64)> = (0..300).filter_map(both).collect();
        known.into_iter().map(|(number, back)| if number == back { number } else { panic!("{number}") }).collect()
    }
    assert_eq!(known::<MemAttr>(), [0, 1, 2, 3, 5, 6, 7, 9, 10, 11, 13, 14, 15]);
    assert_eq!(known::<Shareability>(), [0, 2, 3]);
    assert_eq!(known::<Config>(), [0, 4, 5, 6, 7]);
    assert_eq!(known::<RegionSize>(), [0, 1, 2, 3, 4, 5, 6, 7, 8, 9]);
    assert_eq!(known::<Reason>(), [1, 2, 3, 4]);
    let sizes = RegionSize::ALL.iter().map(|size| size.bytes().trailing_zeros());
    assert!(sizes.eq([12, 14, 16, 21, 25, 29, 30, 34, 36, 39]));
    assert_eq!((0..300).filter(|&bits| Features::try_from(bits).is_ok()).count(), 256);
    assert_eq!((0..300).filter(|&bits| Hints::try_from(bits).is_ok()).count(), 64);
}
