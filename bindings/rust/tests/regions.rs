//! Regions as values against the rows of the second table that the unit accepts.

mod common;

use common::{one_row, Random, ONE_REGION};
use tahvenno::*;

const ROUNDS: usize = 20_000;

fn region(random: &mut Random) -> Region {
    let size = random.pick(RegionSize::ALL);
    let base = random.wide(52) & !(size.bytes() - 1);
    Region { size, base, last_level: random.flag() }
}

/// What a fill of an empty table says of the words, and what the table holds then.
fn filled(words: &[u64; 2]) -> Option<[u64; 2]> {
    let mut table = ONE_REGION;
    match table_fill(&one_row(0), &mut table, 0, words, TABLE_FILL_STORES) {
        Ok(Fill { end: FillEnd::Filled, stores: TABLE_FILL_STORES }) => Some(table),
        Err(Refusal::RowWords) => None,
        other => panic!("{other:?} for {words:x?}"),
    }
}

#[test]
fn fields_in_range_are_accepted_and_come_back() {
    let mut random = Random::new(6);
    for _ in 0..ROUNDS {
        let region = region(&mut random);
        let words = region.words().expect("every field is in its range");
        // by the bit numbers of document 02
        assert_eq!(words, [1 | u64::from(region.last_level) << 1 | u64::from(region.size) << 2, region.base]);
        assert_eq!(filled(&words), Some(words));
        assert_eq!(Region::parse(&words), Ok(Some(region)));
    }
}

#[test]
fn a_base_out_of_range_has_its_error() {
    let mut random = Random::new(7);
    for _ in 0..ROUNDS {
        let region = region(&mut random);
        let unaligned = region.base | random.wide(39) & (region.size.bytes() - 1);
        let high = region.base | 1 << (52 + random.below(12));
        for base in [unaligned, high] {
            let due = if base == region.base { Ok(()) } else { Err(FieldError::Base) };
            assert_eq!(Region { base, ..region }.words().map(drop), due, "{base:x} {region:?}");
        }
    }
}

#[test]
fn words_parse_if_the_unit_takes_them() {
    let mut random = Random::new(8);
    let (mut taken, mut wrong) = (0, Vec::new());
    for _ in 0..5 * ROUNDS {
        let mut words = region(&mut random).words().expect("a region");
        match random.below(3) {
            0 => words[0] ^= 1 << random.below(64),
            1 => words[0] = random.any_width() % 64,
            _ => words[1] ^= 1 << random.below(64),
        }
        let parsed = Region::parse(&words);
        assert_eq!(filled(&words).is_some(), matches!(parsed, Ok(Some(_))), "{words:x?}: {parsed:?}");
        match parsed {
            Ok(Some(region)) => {
                assert_eq!(region.words(), Ok(words));
                taken += 1;
            }
            Ok(None) => assert_eq!(words[0], 0),
            Err(error) if !wrong.contains(&error) => wrong.push(error),
            Err(_) => (),
        }
    }
    assert!(taken > ROUNDS, "{taken} regions were taken");
    for error in [FieldError::Valid, FieldError::Unnamed, FieldError::Size, FieldError::Base] {
        assert!(wrong.contains(&error), "{error:?} did not occur");
    }
}
