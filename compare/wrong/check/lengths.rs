//! 23 given otherwise, and batches that aren't whole taken for others.

use super::asked::Asked;
use super::made::Made;
use super::refusals::{fewer, lengths};
use super::Named;

/// Batches that aren't whole are taken for whole ones.
fn whole(asked: &mut Asked, batches: &[usize], length: impl Fn(usize) -> usize) {
    for &batch in batches {
        let length = length(asked.batches[batch].len());
        asked.batches[batch].resize(length, 0);
    }
}

pub const SEEN: &[Named<fn(&mut Asked)>] = &[
    ("what is over is not looked at", |asked| {
        whole(asked, &[0, 1], |length| length / 16 * 16)
    }),
    ("what is over in the original is not looked at", |asked| {
        whole(asked, &[0], |length| length / 16 * 16)
    }),
    ("what is over in the proposal is not looked at", |asked| {
        whole(asked, &[1], |length| length / 16 * 16)
    }),
    ("a byte over is not looked at", |asked| {
        whole(asked, &[0, 1], |length| {
            length - usize::from(length % 16 == 1)
        })
    }),
    ("a batch shorter than a command is empty", |asked| {
        whole(
            asked,
            &[0, 1],
            |length| if length < 16 { 0 } else { length },
        )
    }),
    ("half a command over is not looked at", |asked| {
        whole(asked, &[0, 1], |length| {
            length / 8 * 8 - length % 16 / 8 * 8
        })
    }),
    ("a command a byte short is whole", |asked| {
        whole(asked, &[0, 1], |length| {
            length + usize::from(length % 16 == 15)
        })
    }),
    ("a batch's length of 16 bits", |asked| {
        whole(asked, &[0, 1], |length| length % (1 << 16))
    }),
    ("a batch's length of 20 bits", |asked| {
        whole(asked, &[0, 1], |length| length % (1 << 20))
    }),
];

/// 23 where it isn't due.
fn more(made: &mut Made, so: impl Fn(&Asked) -> bool) {
    if made.number == 0 && so(&made.asked) {
        made.refuse(23, 0);
    }
}

pub const MADE: &[Named<fn(&mut Made)>] = &[
    ("23 for an empty batch", |made| {
        more(made, |asked| lengths(asked).contains(&0))
    }),
    ("23 for an empty original", |made| {
        more(made, |asked| lengths(asked)[0] == 0)
    }),
    ("23 for an empty proposal", |made| {
        more(made, |asked| lengths(asked)[1] == 0)
    }),
    ("23 for an odd number of commands", |made| {
        more(made, |asked| {
            lengths(asked).iter().any(|length| length % 32 > 0)
        })
    }),
    ("23 for a longer proposal", |made| {
        more(made, |asked| lengths(asked)[1] > lengths(asked)[0])
    }),
    ("23 for a proposal of another length", |made| {
        more(made, |asked| lengths(asked)[1] != lengths(asked)[0])
    }),
    ("23 for more commands than a queue holds", |made| {
        more(made, |asked| {
            lengths(asked).iter().any(|&length| length > 1 << 16)
        })
    }),
    ("23 for as many commands as a queue holds", |made| {
        more(made, |asked| lengths(asked).contains(&(1 << 16)))
    }),
    (
        "23 for more commands than the image's queue has slots",
        |made| {
            more(made, |asked| {
                let slots = 16usize << (asked.kept[0] >> 50 & 15);
                lengths(asked).iter().any(|&length| length > slots)
            })
        },
    ),
    ("4 for a batch that isn't as long as the queue", |made| {
        let slots = 16usize << (made.kept.first().map_or(0, |word| word >> 50 & 15));
        if made.number == 0 && lengths(&made.asked)[0] != slots {
            made.refuse(4, 0);
        }
    }),
    ("23 only if both aren't whole", |made| {
        fewer(made, 23, |asked| {
            lengths(asked).iter().any(|length| length % 16 == 0)
        })
    }),
    ("23 only if together they aren't whole", |made| {
        fewer(made, 23, |asked| {
            lengths(asked).iter().sum::<usize>() % 16 == 0
        })
    }),
    ("23 only if they differ in it", |made| {
        fewer(made, 23, |asked| {
            lengths(asked)[0] % 16 == lengths(asked)[1] % 16
        })
    }),
    ("23 tells the batch", |made| {
        if made.number == 23 {
            made.answer[0] = u64::from(lengths(&made.asked)[0] % 16 == 0);
        }
    }),
    ("23 tells the length", |made| {
        if made.number == 23 {
            made.answer[1] = lengths(&made.asked)[0] as u64;
        }
    }),
    ("23 is a command that doesn't qualify", |made| {
        if made.number == 23 {
            let [one, other] = lengths(&made.asked);
            let batch = usize::from(one % 16 == 0);
            made.say([1, batch as u64, [one, other][batch] as u64 / 16]);
        }
    }),
    ("4 for 23", |made| {
        if made.number == 23 {
            made.refuse(4, 0);
        }
    }),
    ("22 for 23", |made| {
        if made.number == 23 {
            made.refuse(22, 0);
        }
    }),
    ("13 for 23", |made| {
        if made.number == 23 {
            made.refuse(13, 0);
        }
    }),
];
