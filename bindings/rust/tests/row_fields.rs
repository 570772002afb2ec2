//! Each field of a row outside its range: its own error, and no words.

mod common;

use common::rows::KINDS;
use common::Random;
use tahvenno::*;

/// A row with one field spoilt, and the error that is due; `None` where its kind has no such field.
type Spoil = fn(&mut Random, Row) -> Option<(Row, FieldError)>;

const ROUNDS: usize = 20_000;
const SPOILS: [Spoil; 6] = [substream, stream, span, input, output, hints];

fn substream(random: &mut Random, row: Row) -> Option<(Row, FieldError)> {
    let Row::Cd(cd) = row else { return None };
    let substream = random.wide(32) as u32 | 1 << (20 + random.below(12));
    Some((Row::Cd(Cd { substream, ..cd }), FieldError::Substream))
}

fn stream(random: &mut Random, row: Row) -> Option<(Row, FieldError)> {
    let Row::SteBranch(block) = row else { return None };
    let stream = block.stream | 1 << random.below(block.span.into());
    Some((Row::SteBranch(SteBranch { stream, ..block }), FieldError::Stream))
}

fn span(random: &mut Random, row: Row) -> Option<(Row, FieldError)> {
    let any = random.next() as u8;
    let good = matches!((&row, any), (Row::SteBranch(_), 6 | 8 | 10)) || (12..=48).contains(&any);
    let bad = if good { random.pick(&[0, 5, 7, 9, 11, 49, 63, 64, 76, 255]) } else { any };
    let spoilt = match row {
        Row::SteBranch(row) => Row::SteBranch(SteBranch { span: bad, ..row }),
        Row::Stage1(row) => Row::Stage1(Stage1 { span: bad, ..row }),
        Row::Stage1Branch(row) => Row::Stage1Branch(Stage1Branch { span: bad, ..row }),
        Row::Stage2(row) => Row::Stage2(Stage2 { span: bad, ..row }),
        Row::Stage2Branch(row) => Row::Stage2Branch(Stage2Branch { span: bad, ..row }),
        _ => return None,
    };
    Some((spoilt, FieldError::Span))
}

/// An address that is no multiple of the span, or above 2^52; of the upper half one that is in neither.
fn misplaced(random: &mut Random, address: u64, span: u8) -> u64 {
    let unaligned = address | 1 << random.below(span.into());
    let high = address ^ 1 << (52 + random.below(12));
    random.pick(&[unaligned, high])
}

/// The upper half, too, where only input addresses of stage 1 may lie.
fn misplaced_low(random: &mut Random, address: u64, span: u8) -> u64 {
    let misplaced = misplaced(random, address, span);
    random.pick(&[misplaced, address | u64::MAX << 52])
}

fn input(random: &mut Random, row: Row) -> Option<(Row, FieldError)> {
    let spoilt = match row {
        Row::Stage1(row) => Row::Stage1(Stage1 { input: misplaced(random, row.input, row.span), ..row }),
        Row::Stage1Branch(row) => {
            Row::Stage1Branch(Stage1Branch { input: misplaced(random, row.input, row.span), ..row })
        }
        Row::Stage2(row) => Row::Stage2(Stage2 { input: misplaced_low(random, row.input, row.span), ..row }),
        Row::Stage2Branch(row) => {
            Row::Stage2Branch(Stage2Branch { input: misplaced_low(random, row.input, row.span), ..row })
        }
        _ => return None,
    };
    Some((spoilt, FieldError::Input))
}

fn output(random: &mut Random, row: Row) -> Option<(Row, FieldError)> {
    let spoilt = match row {
        Row::Stage1(row) => Row::Stage1(Stage1 { output: misplaced_low(random, row.output, row.span), ..row }),
        Row::Stage2(row) => Row::Stage2(Stage2 { output: misplaced_low(random, row.output, row.span), ..row }),
        _ => return None,
    };
    Some((spoilt, FieldError::Output))
}

/// A hint where none may be: of a Device type any, else of the half that is not cached.
fn hints(random: &mut Random, row: Row) -> Option<(Row, FieldError)> {
    let Row::Stage1(row) = row else { return None };
    let inner = [Hints::INNER_RA, Hints::INNER_WA, Hints::INNER_TR];
    let outer = [Hints::OUTER_RA, Hints::OUTER_WA, Hints::OUTER_TR];
    let (halves, memattr) = match random.below(3) {
        0 => ([inner, outer].concat(), MemAttr::Device(random.pick(Device::ALL))),
        1 => (inner.to_vec(), MemAttr::Normal { outer: random.cache(), inner: Cache::NonCacheable }),
        _ => (outer.to_vec(), MemAttr::Normal { outer: Cache::NonCacheable, inner: random.cache() }),
    };
    let hints = row.attributes.hints | random.pick(&halves);
    Some((
        Row::Stage1(Stage1 { attributes: Attributes { memattr, hints, ..row.attributes }, ..row }),
        FieldError::Hints,
    ))
}

#[test]
fn each_has_its_own_error() {
    let mut random = Random::new(4);
    for spoil in SPOILS {
        let mut spoilt = 0;
        while spoilt < ROUNDS {
            let row = random.pick(&KINDS)(&mut random);
            if let Some((row, error)) = spoil(&mut random, row) {
                assert_eq!(row.words(), Err(error), "{row:?}");
                spoilt += 1;
            }
        }
    }
}

#[test]
fn every_span_of_every_kind() {
    let mut random = Random::new(5);
    for span in 0..=u8::MAX {
        let regime = Regime::El2;
        let stage = [
            Row::Stage1Branch(Stage1Branch { regime, span, input: 0 }),
            Row::Stage1(Stage1 { regime, span, input: 0, output: 0, attributes: random.attributes() }),
            Row::Stage2Branch(Stage2Branch { vmid: 0, span, input: 0 }),
        ];
        for row in stage {
            assert_eq!(row.words().is_ok(), (12..=48).contains(&span), "{row:?}");
        }
        let block = Row::SteBranch(SteBranch { stream: 0, span });
        assert_eq!(block.words().is_ok(), [6, 8, 10].contains(&span), "{block:?}");
    }
}
