//! The unit, the model and the plain version behind functions of one shape, that of the
//! C interface.

use crate::call::Reply;
use crate::cases::{Case, Lent, Work};
use crate::interface::{tahvenno_check_batch, tahvenno_fill, tahvenno_run, tahvenno_translate};
use crate::modelled::{model_check_batch, model_fill, model_run, model_translate};
use crate::plained::{plain_check_batch, plain_fill, plain_run, plain_translate};
use std::hint::black_box;

pub type Run = unsafe extern "C" fn(
    *mut u64,
    usize,
    *mut u64,
    usize,
    *const u8,
    usize,
    u64,
    u64,
    *mut u64,
) -> u64;
pub type Translate =
    unsafe extern "C" fn(*const u64, usize, u32, u32, u64, u64, u64, u64, u64, *mut u64) -> u64;

pub type Fill =
    unsafe extern "C" fn(*mut u64, usize, u64, u64, u64, u64, u64, u64, *mut u64) -> u64;

pub type Check = unsafe extern "C" fn(
    *const u64,
    usize,
    *const u64,
    usize,
    *const u8,
    usize,
    *const u8,
    usize,
    u64,
    *mut u64,
) -> u64;

pub struct Side {
    pub run: Run,
    pub check: Check,
    pub fill: Fill,
    pub translate: Translate,
}

pub const UNIT: Side = Side {
    run: tahvenno_run,
    check: tahvenno_check_batch,
    fill: tahvenno_fill,
    translate: tahvenno_translate,
};

pub const MODEL: Side = Side {
    run: model_run,
    check: model_check_batch,
    fill: model_fill,
    translate: model_translate,
};

pub const PLAIN: Side = Side {
    run: plain_run,
    check: plain_check_batch,
    fill: plain_fill,
    translate: plain_translate,
};

impl Side {
    /// One call of a case. Not inlined, and through a hidden pointer, so that the
    /// compiler can't fit code that it sees, all but the unit's, to one input.
    #[inline(never)]
    pub fn call(&self, case: &Case, call: usize, lent: &mut Lent) -> Reply {
        let mut answer = [u64::MAX; 8];
        let (memory, words) = (lent.kept.as_mut_ptr(), lent.kept.len());
        let (table, rows) = (lent.table.as_mut_ptr(), lent.table.len());
        let told = answer.as_mut_ptr();
        // SAFETY: the pointers come from live borrows of the lengths given beside
        // them, eight words for the answer, and no two overlap.
        let number = unsafe {
            match &case.work {
                Work::Runs { queues, features } => {
                    let (first, bytes) = (queues[call].as_ptr(), queues[call].len());
                    black_box(self.run)(
                        memory,
                        words,
                        table,
                        rows,
                        first,
                        bytes,
                        *features,
                        u64::MAX,
                        told,
                    )
                }
                Work::Check { batches, features } => {
                    let [original, proposed] = batches;
                    black_box(self.check)(
                        memory,
                        words,
                        table,
                        rows,
                        original.as_ptr(),
                        original.len(),
                        proposed.as_ptr(),
                        proposed.len(),
                        *features,
                        told,
                    )
                }
                Work::Fill(row, [w0, w1, w2, w3]) => {
                    black_box(self.fill)(memory, words, *row, *w0, *w1, *w2, *w3, u64::MAX, told)
                }
                Work::Translate(asked) => black_box(self.translate)(
                    memory,
                    words,
                    asked.stream,
                    asked.substream,
                    asked.address,
                    asked.how,
                    asked.memattr,
                    asked.sh,
                    asked.hints,
                    told,
                ),
            }
        };
        let answer = black_box(answer);
        Reply { number, answer }
    }
}
