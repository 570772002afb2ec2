//! A use of the check of a shortened batch: a guest's single pages merged into ranges, and
//! each batch of them checked by the unit; wrong mergings, too, which have to be found.
//!
//! The proposals are made here, without the unit and without its model. What the check says
//! of them has to be what the model says.

mod batch;
mod image;
mod slips;

use crate::answers::{checked, reply};
use crate::call::{Call, Reply, DIFFERS, YES};
use crate::generate::commands::Command;
use crate::generate::random::Random;
use crate::lent::{Lent, Memory};
use crate::model::check::check_batch;
use crate::model::command::Features;
use crate::model::control::Control;
use crate::unit;
use batch::{batches, bytes, Batch};
use image::{images, Image};
use slips::SLIPS;
use std::process::ExitCode;

/// What came of a stream.
#[derive(Default)]
struct Sums {
    batches: u64,
    /// Invalidations of the stream, and those of the proposals.
    before: u64,
    after: u64,
    /// Batches that got shorter; checks, with as many images as it took; rows in them, and
    /// those that a run of the original removes.
    shorter: u64,
    checks: u64,
    rows: u64,
    gone: u64,
    /// Wrong mergings by their sort, for each of which the row was named.
    named: [u64; SLIPS.len()],
}

/// Exits 0 if every batch got a yes and every wrong merging a row, 1 if not, and 2 if there
/// is no such file.
pub fn merged(file: &str, features: u64) -> ExitCode {
    let sent = match std::fs::read(file) {
        Ok(sent) if !sent.is_empty() && sent.len() % 16 == 0 => sent,
        Ok(_) => return failed(2, file, "no file of whole commands"),
        Err(error) => return failed(2, file, &error.to_string()),
    };
    let mut sums = Sums::default();
    for (number, batch) in batches(&sent).iter().enumerate() {
        if let Err(why) = one(batch, features, &mut sums) {
            return failed(1, file, &format!("batch {number}: {why}"));
        }
    }
    sums.print(file, sent.len() as u64 / 16, features);
    ExitCode::SUCCESS
}

fn failed(code: u8, file: &str, why: &str) -> ExitCode {
    println!("{file}: {why}");
    ExitCode::from(code)
}

fn one(batch: &Batch, features: u64, sums: &mut Sums) -> Result<(), String> {
    let proposed = batch.proposal();
    if proposed.len() > batch.commands.len() {
        return Err(format!(
            "{} commands become {}",
            batch.commands.len(),
            proposed.len()
        ));
    }
    sums.batches += 1;
    sums.before += batch.commands.len() as u64;
    sums.after += proposed.len() as u64;
    sums.shorter += u64::from(proposed.len() < batch.commands.len());
    for image in images(batch, features) {
        let words = ask(&image, &batch.commands, &proposed, features)?;
        if words[0] != YES {
            return Err(format!("no yes for a merging but {words:?}"));
        }
        sums.checks += 1;
        sums.rows += image.kept.len() as u64 / 4;
        let runs = [&batch.commands, &proposed].map(|own| ran(&image, own, features));
        let [(one, gone), (other, _)] = runs;
        if one != other || one.is_empty() {
            return Err("runs of both leave other rows".into());
        }
        sums.gone += gone;
    }
    wrong(batch, features, sums)
}

/// Each sort of wrong merging, of the pages that were merged into most.
fn wrong(batch: &Batch, features: u64, sums: &mut Sums) -> Result<(), String> {
    for (sort, (name, slip)) in SLIPS.iter().enumerate() {
        let Some(slip) = batch
            .largest()
            .and_then(|pages| slip(batch, pages, features))
        else {
            continue;
        };
        let image = Image::around(&slip, features);
        let words = ask(&image, &batch.commands, &slip.proposed, features)?;
        if words[..2] != [DIFFERS, image.named] {
            let due = image.named;
            return Err(format!("{name}: row {due} isn't named but {words:?}"));
        }
        sums.named[sort] += 1;
    }
    Ok(())
}

/// The rows that a run of the unit leaves of a batch, and how many it removes.
fn ran(image: &Image, batch: &[Command], features: u64) -> (Vec<u64>, u64) {
    let count = batch.len() as u64;
    let log2size = count.next_power_of_two().trailing_zeros().into();
    let control = Control {
        wr: count,
        enabled: true,
        log2size,
        ..Control::fields(0)
    };
    let mut queue = bytes(batch);
    queue.resize(16 << log2size, 0);
    let mut kept = image.kept.clone();
    kept[0] = control.pack();
    let garbage = &mut Random::new(0);
    let mut memory = Memory::new(&kept, &[0, 0], garbage);
    let mut answer = Lent::new(&[0; 8], garbage);
    let call = Call::Run {
        queue: &queue,
        features,
        allowance: u64::MAX,
    };
    let number = unit::perform(call, &mut memory, &mut answer);
    // A run that isn't carried out to its end leaves no rows to be compared.
    let whole = number == 0 && answer.inner()[1] == count;
    let left = if whole { &memory.inner()[1..] } else { &[] };
    (left.to_vec(), answer.inner()[3])
}

/// What the unit says of two batches, once the model says the same.
fn ask(
    image: &Image,
    original: &[Command],
    proposed: &[Command],
    features: u64,
) -> Result<[u64; 3], String> {
    let (original, proposed) = (bytes(original), bytes(proposed));
    let table = [0, 0];
    let garbage = &mut Random::new(!0);
    let mut memory = Memory::new(&image.kept, &table, garbage);
    let mut answer = Lent::new(&[!0; 8], garbage);
    let call = Call::CheckBatch {
        original: &original,
        proposed: &proposed,
        features,
    };
    let number = unit::perform(call, &mut memory, &mut answer);
    let theirs = Reply {
        number,
        answer: std::array::from_fn(|word| answer.inner()[word]),
    };
    let set = Features::from_bits(features);
    let ours = reply(check_batch(&image.kept, &table, &original, &proposed, set).map(checked));
    if memory.inner() != image.kept || memory.table() != table || !memory.margins_kept() {
        return Err("the unit stored to what it only reads".into());
    }
    if theirs != ours || number != 0 {
        return Err(format!(
            "the unit comes to {theirs:x?}, the model to {ours:x?}"
        ));
    }
    Ok([ours.answer[0], ours.answer[1], ours.answer[2]])
}

impl Sums {
    fn print(&self, file: &str, sent: u64, features: u64) {
        let saved = self.before - self.after;
        println!(
            "{file}: {sent} commands, features {features:#x}: {} batches of {} invalidations, \
             merged into {}; {} batches got shorter, and each one a yes ({} checks over {} rows, of which {} go); \
             the stream has {} commands then, {:.1} % of before",
            self.batches,
            self.before,
            self.after,
            self.shorter,
            self.checks,
            self.rows,
            self.gone,
            sent - saved,
            100.0 * (sent - saved) as f64 / sent as f64,
        );
        for ((name, _), named) in SLIPS.iter().zip(self.named) {
            println!("  {name}: {named} times, each time the row named");
        }
    }
}
