//! Batches searched in another order, or not in full, for commands that don't qualify.

use super::asked::Asked;
use super::made::Made;
use super::Named;
use crate::call::{DIFFERS, UNQUALIFIED};

/// The first command of the batch that doesn't qualify, if there is one.
fn first(asked: &Asked, batch: usize) -> Option<[u64; 3]> {
    let number = *asked.unfit(batch).first()?;
    Some([UNQUALIFIED, batch as u64, number])
}

/// What is left to be said if no command is named.
fn rows(asked: &Asked) -> [u64; 3] {
    match asked.differ().iter().position(|&differs| differs) {
        Some(row) => [DIFFERS, row as u64, 0],
        None => [0; 3],
    }
}

/// Only commands that pass are found not to qualify.
fn only(made: &mut Made, so: impl Fn(&Asked, usize, u64) -> bool) {
    if !made.said(UNQUALIFIED) {
        return;
    }
    let asked = &made.asked;
    let mut words = None;
    for batch in [0, 1] {
        let mut unfit = asked.unfit(batch).into_iter();
        let number = unfit.find(|&number| so(asked, batch, number));
        words = words.or(number.map(|number| [UNQUALIFIED, batch as u64, number]));
    }
    let words = words.unwrap_or_else(|| rows(asked));
    made.say(words);
}

fn count(asked: &Asked, batch: usize) -> u64 {
    asked.batches[batch].len() as u64 / 16
}

pub const MADE: &[Named<fn(&mut Made)>] = &[
    ("the proposal is searched first", |made| {
        if made.said(UNQUALIFIED) {
            let words = first(&made.asked, 1).or(first(&made.asked, 0));
            made.say(words.unwrap_or([0; 3]));
        }
    }),
    ("the lower number of both batches is named", |made| {
        if made.said(UNQUALIFIED) {
            let both = [0, 1].map(|batch| first(&made.asked, batch));
            let words = both.into_iter().flatten().min_by_key(|words| words[2]);
            made.say(words.unwrap_or([0; 3]));
        }
    }),
    ("the rows are compared first", |made| {
        if made.said(UNQUALIFIED) {
            let words = rows(&made.asked);
            if words[0] == DIFFERS {
                made.say(words);
            }
        }
    }),
    (
        "the rows are compared before the proposal is searched",
        |made| {
            if made.said(UNQUALIFIED) && made.answer[1] == 1 {
                let words = rows(&made.asked);
                if words[0] == DIFFERS {
                    made.say(words);
                }
            }
        },
    ),
    ("equal rows are a yes whatever the commands are", |made| {
        if made.said(UNQUALIFIED) && rows(&made.asked) == [0; 3] {
            made.say([0; 3]);
        }
    }),
    ("the same bytes get a yes unseen", |made| {
        if made.number == 0 && made.asked.batches[0] == made.asked.batches[1] {
            made.say([0; 3]);
        }
    }),
    ("the original is not searched", |made| {
        only(made, |_, batch, _| batch == 1)
    }),
    ("the proposal is not searched", |made| {
        only(made, |_, batch, _| batch == 0)
    }),
    ("the first command is not looked at", |made| {
        only(made, |_, _, number| number > 0)
    }),
    ("the last command is not looked at", |made| {
        only(made, |asked, batch, number| {
            number + 1 < count(asked, batch)
        })
    }),
    (
        "the last command of the original is not looked at",
        |made| {
            only(made, |asked, batch, number| {
                batch == 1 || number + 1 < count(asked, 0)
            })
        },
    ),
    (
        "the last command of the proposal is not looked at",
        |made| {
            only(made, |asked, batch, number| {
                batch == 0 || number + 1 < count(asked, 1)
            })
        },
    ),
    (
        "the proposal is searched as far as the original goes",
        |made| {
            only(made, |asked, batch, number| {
                batch == 0 || number < count(asked, 0)
            })
        },
    ),
    (
        "the original is searched as far as the proposal goes",
        |made| {
            only(made, |asked, batch, number| {
                batch == 1 || number < count(asked, 1)
            })
        },
    ),
    ("each second command is looked at", |made| {
        only(made, |_, _, number| number % 2 == 0)
    }),
    ("as many commands as a queue holds are looked at", |made| {
        only(made, |_, _, number| number < 1 << 12)
    }),
    ("65,536 commands are looked at", |made| {
        only(made, |_, _, number| number < 1 << 16)
    }),
    ("a command behind one for all is not looked at", |made| {
        only(made, |asked, batch, number| {
            let before = asked.commands(batch).into_iter().take(number as usize);
            !before.into_iter().any(|(low, _)| low == 0x30)
        })
    }),
    (
        "a command that stands in both batches is not looked at",
        |made| {
            only(made, |asked, batch, number| {
                let own = asked.commands(batch)[number as usize];
                !asked.commands(1 - batch).contains(&own)
            })
        },
    ),
    (
        "a proposed command that the original has qualifies",
        |made| {
            only(made, |asked, batch, number| {
                let own = asked.commands(batch)[number as usize];
                batch == 0 && !asked.commands(1).contains(&own)
            })
        },
    ),
];
