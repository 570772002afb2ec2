//! Control words: one that is well formed has no part in a check.

use super::samples::{batch, hall, FIT};
use super::{bytes, call, Image};
use crate::call::Reply;
use crate::checker::Checker;
use crate::limits::LOG2SIZE;
use crate::model::control::Control;

pub fn sweeps(checker: &mut Checker) {
    checker.phase("check: control words of every sort");
    let image = hall();
    let (all, some) = (batch(&FIT), batch(&FIT[..7]));
    let regions = [0x70, 0x73].map(|code| batch(&[code]));
    let unfit = bytes(&[(0x46, 0)]);
    for [original, proposed] in [
        [&all[..], &all],
        [&some, &[]],
        [&some, &all],
        [&regions[0], &regions[1]],
        [&unfit, &some],
        [&all, &unfit],
        [&[], &[]],
    ] {
        controls(checker, &image, original, proposed);
    }
}

const LAW: &str = "a check hangs on more of the control word than its being well formed";

/// The answer with the image's own control word.
fn own(checker: &mut Checker, image: &Image, call: crate::call::Call) -> Reply {
    let (mut kept, mut table) = (image.kept.clone(), image.table.clone());
    checker.both(&mut kept, &mut table, call)
}

/// Every size, indexes at the ends of the ring, none waiting to all, and every flag; each
/// also with each bit changed, which makes some ill formed.
fn controls(checker: &mut Checker, image: &Image, original: &[u8], proposed: &[u8]) {
    let call = call(original, proposed, image.features);
    let due = own(checker, image, call);
    for log2size in 0..=LOG2SIZE {
        let slots = 1u64 << log2size;
        for rd in [0, 1, slots - 1, slots, 2 * slots - 1] {
            for waits in [0, 1, slots / 2, slots] {
                for flags in 0..16 {
                    let control = Control {
                        rd,
                        wr: (rd + waits) % (2 * slots),
                        err: u64::from(flags & 3 > 0),
                        gerror: flags & 3 == 1,
                        gerrorn: false,
                        enabled: flags & 4 > 0,
                        log2size,
                        pending: flags & 8 > 0,
                    };
                    let mut kept = image.kept.clone();
                    kept[0] = control.pack();
                    let before = kept.clone();
                    let reply = checker.both(&mut kept, &mut image.table.clone(), call);
                    checker.insist(reply == due, LAW, &before, call, (reply, &kept));
                }
            }
        }
        let word = Control {
            wr: slots,
            log2size,
            ..Control::fields(0)
        };
        for bit in 0..64 {
            let mut kept = image.kept.clone();
            kept[0] = word.pack() ^ 1 << bit;
            let before = kept.clone();
            let reply = checker.both(&mut kept, &mut image.table.clone(), call);
            let met = reply == due || reply.number == 2;
            checker.insist(met, LAW, &before, call, (reply, &kept));
        }
    }
}
