//! The command that doesn't qualify, counted or told otherwise.

use super::made::Made;
use super::Named;
use crate::call::{DIFFERS, UNQUALIFIED};
use crate::model::reason::Reason;

pub const MADE: &[Named<fn(&mut Made)>] = &[
    ("a command's place is counted in bytes", |made| {
        made.number(|_, batch, number| [batch as u64, 16 * number])
    }),
    ("a command's place is counted in words", |made| {
        made.number(|_, batch, number| [batch as u64, 2 * number])
    }),
    ("commands are counted from 1", |made| {
        made.number(|_, batch, number| [batch as u64, number + 1])
    }),
    ("commands are counted from the end", |made| {
        made.number(|asked, batch, number| {
            let count = asked.batches[batch].len() as u64 / 16;
            [batch as u64, count - 1 - number]
        })
    }),
    ("no command is named", |made| {
        made.number(|_, batch, _| [batch as u64, 0])
    }),
    ("the last one that doesn't qualify is named", |made| {
        made.number(|asked, batch, number| {
            [
                batch as u64,
                asked.unfit(batch).last().copied().unwrap_or(number),
            ]
        })
    }),
    ("those that don't qualify are counted", |made| {
        made.number(|asked, batch, _| [batch as u64, asked.unfit(batch).len() as u64])
    }),
    ("the proposal's are counted behind the original's", |made| {
        made.number(|asked, batch, number| {
            let before = asked.batches[0].len() as u64 / 16 * batch as u64;
            [batch as u64, before + number]
        })
    }),
    ("the batches' numbers are exchanged", |made| {
        made.number(|_, batch, number| [1 - batch as u64, number])
    }),
    ("the batches are counted from 1", |made| {
        made.number(|_, batch, number| [batch as u64 + 1, number])
    }),
    ("no batch is named", |made| {
        made.number(|_, _, number| [0, number])
    }),
    (
        "the batch's place and the command's are exchanged",
        |made| made.number(|_, batch, number| [number, batch as u64]),
    ),
    ("the proposal's command of both is named", |made| {
        made.number(|asked, batch, number| {
            let other = asked.unfit(1).first().copied();
            [batch as u64, other.filter(|_| batch == 0).unwrap_or(number)]
        })
    }),
    ("a command's number of four bits", |made| {
        made.number(|_, batch, number| [batch as u64, number & 0xF])
    }),
    ("a command's number of eight bits", |made| {
        made.number(|_, batch, number| [batch as u64, number & 0xFF])
    }),
    ("a command's number of twelve bits", |made| {
        made.number(|_, batch, number| [batch as u64, number & 0xFFF])
    }),
    ("a command's number of 16 bits", |made| {
        made.number(|_, batch, number| [batch as u64, number & 0xFFFF])
    }),
    ("a command's number below 4,096", |made| {
        made.number(|_, batch, number| [batch as u64, number.min(0xFFF)])
    }),
    ("a command's slot in the image's queue is named", |made| {
        let control = made.kept.first().copied().unwrap_or(0);
        let (rd, size) = (control & 0xF_FFFF, 1 << (control >> 50 & 15));
        made.number(|_, batch, number| [batch as u64, (rd + number) % size])
    }),
    ("the reason is told", |made| {
        if made.said(UNQUALIFIED) {
            let [_, batch, number, ..] = made.answer.map(|word| word as usize);
            let own = made.asked.commands(batch)[number];
            made.answer[3] = made.asked.legal()(own).err().map_or(0, Reason::number);
        }
    }),
    ("the code is told", |made| {
        if made.said(UNQUALIFIED) {
            let [_, batch, number, ..] = made.answer.map(|word| word as usize);
            made.answer[3] = made.asked.commands(batch)[number].0 & 0xFF;
        }
    }),
    ("a command that doesn't qualify is a 2", |made| {
        if made.said(UNQUALIFIED) {
            made.answer[0] = DIFFERS;
        }
    }),
    ("one that doesn't qualify in the proposal is a 3", |made| {
        if made.said(UNQUALIFIED) && made.answer[1] == 1 {
            made.answer[0] = 3;
        }
    }),
    ("an illegal command is refused with 21", |made| {
        if made.said(UNQUALIFIED) {
            let [_, batch, number, ..] = made.answer.map(|word| word as usize);
            let own = made.asked.commands(batch)[number];
            if made.asked.legal()(own).is_err() {
                made.refuse(21, number as u64);
            }
        }
    }),
    ("one that doesn't qualify is refused with 23", |made| {
        if made.said(UNQUALIFIED) {
            made.refuse(23, 0);
        }
    }),
];
