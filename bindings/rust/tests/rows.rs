//! Rows as values against the rows that the unit accepts.

mod common;

use common::rows::KINDS;
use common::{one_row, paper, put, Random};
use tahvenno::*;

const ROUNDS: usize = 20_000;

/// What a fill of an empty memory says of the words.
fn accepted(words: &[u64; 4]) -> bool {
    match fill(&mut one_row(0), 0, words, FILL_STORES) {
        Ok(_) => true,
        Err(Refusal::RowWords) => false,
        other => panic!("{other:?} for {words:x?}"),
    }
}

#[test]
fn fields_in_range_are_accepted_and_come_back() {
    let mut random = Random::new(1);
    for make in KINDS {
        for _ in 0..ROUNDS {
            let (row, mut kept) = (make(&mut random), one_row(0));
            let words = row.words().expect("every field is in its range");
            assert_eq!(words, paper::words(&row), "{row:?}");
            put(&mut kept, 0, row);
            assert_eq!(rows(&kept).collect::<Vec<_>>(), [&words]);
            assert_eq!(Row::parse(&words), Ok(Some(row)));
        }
    }
}

/// A bit flipped, a few bits of a word replaced, or a word that is another row's.
fn damage(random: &mut Random, words: &mut [u64; 4]) {
    let word = random.pick(&[0, 0, 1, 2, 3]);
    match random.below(3) {
        0 => words[word] ^= 1 << random.below(64),
        1 => words[word] ^= random.next() & random.next() & random.next(),
        _ => words[word] = random.pick(&KINDS)(random).words().expect("a row")[word],
    }
}

#[test]
fn words_parse_if_the_unit_takes_them() {
    let mut random = Random::new(2);
    let (mut taken, mut wrong) = (0, vec![0; FieldError::ALL.len()]);
    for _ in 0..10 * ROUNDS {
        let mut words = random.pick(&KINDS)(&mut random).words().expect("a row");
        for _ in 0..=random.below(2) {
            damage(&mut random, &mut words);
        }
        match (accepted(&words), Row::parse(&words)) {
            (true, Ok(Some(row))) => {
                assert_eq!(row.words(), Ok(words));
                taken += 1;
            }
            (false, Ok(None)) => assert_eq!(words[0], 0),
            (false, Err(error)) => wrong[FieldError::ALL.iter().position(|&each| each == error).unwrap()] += 1,
            (unit, parsed) => panic!("{words:x?}: the unit says {unit}, parsing gives {parsed:?}"),
        }
    }
    assert!(taken > ROUNDS, "{taken} rows were taken");
    // a substream cannot be too wide there, and the last ones are about other words
    let of_rows = [
        FieldError::Valid,
        FieldError::Unnamed,
        FieldError::Marks,
        FieldError::Config,
        FieldError::MemAttr,
        FieldError::Sh,
        FieldError::Hints,
        FieldError::Span,
        FieldError::Stream,
        FieldError::Input,
        FieldError::Output,
    ];
    for (error, times) in FieldError::ALL.iter().zip(wrong) {
        assert_eq!(times > 0, of_rows.contains(error), "{error:?}: {times}");
    }
}

#[test]
fn words_of_every_shape_parse_if_the_unit_takes_them() {
    let mut random = Random::new(3);
    for _ in 0..3 * ROUNDS {
        let words = [0; 4].map(|_: u64| random.any_width() & (random.next() | random.next()));
        let shaped = [words[0] & 0xFFFF | 1, words[1], words[2] & !0xFFF, words[3] & !0xFFF];
        for words in [words, shaped] {
            let parsed = Row::parse(&words);
            assert_eq!(accepted(&words), matches!(parsed, Ok(Some(_))), "{words:x?}: {parsed:?}");
        }
    }
}
