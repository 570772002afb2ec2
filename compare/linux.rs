//! The commands that a guest sent, read by the model and written by the unit: one by one,
//! and in batches that a run of the unit consumes.

use crate::call::Call;
use crate::generate::random::Random;
use crate::lent::{Lent, Memory};
use crate::limits::bytes;
use crate::model::command::{decode, Features};
use crate::model::control::Control;
use crate::model::fields::{looked_at, read, Fields};
use crate::unit;
use std::collections::BTreeMap;
use std::process::ExitCode;

/// As many commands as Linux was seen to send by one doorbell, into a queue of more.
const BATCH: usize = 65;
const LOG2SIZE: u64 = 8;
const EMPTY: u64 = 2;

/// How often a code came back so: byte for byte, and but for bits that aren't looked at.
#[derive(Default)]
struct Came {
    equal: u64,
    but_for: u64,
}

/// Exits 0 if all came back, 1 if not, and 2 if there is no such file.
pub fn written_back(file: &str, features: u64) -> ExitCode {
    let sent = match std::fs::read(file) {
        Ok(sent) if !sent.is_empty() && sent.len() % 16 == 0 => sent,
        Ok(_) => return failed(2, file, "no file of whole commands"),
        Err(error) => return failed(2, file, &error.to_string()),
    };
    let sent: Vec<u128> = sent
        .chunks_exact(16)
        .map(|slot| u128::from_le_bytes(slot.try_into().expect("sixteen bytes")))
        .collect();
    let came = match one_by_one(&sent, features) {
        Ok(came) => came,
        Err(why) => return failed(1, file, &why),
    };
    if let Err(why) = batches(&sent, features) {
        return failed(1, file, &why);
    }
    let sum = |of: fn(&Came) -> u64| came.values().map(of).sum::<u64>();
    let others = came.iter().filter(|(_, came)| came.but_for > 0);
    let others: Vec<String> = others
        .map(|(code, came)| format!("{code:02X} {}", came.but_for))
        .collect();
    println!(
        "{file}: {} commands written, features {features:#x}: {} byte for byte, {} but for bits \
         that aren't looked at ({}); by batches the same, and consumed",
        sent.len(),
        sum(|came| came.equal),
        sum(|came| came.but_for),
        others.join(", ")
    );
    ExitCode::SUCCESS
}

fn failed(code: u8, file: &str, why: &str) -> ExitCode {
    println!("{file}: {why}");
    ExitCode::from(code)
}

/// The fields of a command that the model takes for legal.
fn fields(command: u128, features: u64) -> Option<Fields> {
    let (low, high) = (command as u64, (command >> 64) as u64);
    let legal = decode(low, high, Features::from_bits(features)).is_ok();
    read(command).filter(|_| legal)
}

/// A call of the unit on those words and bytes, which then hold what it left: its number
/// and its answer.
fn on_unit(kept: &mut [u64], bytes: &mut [u8], call: Call) -> Result<(u64, Vec<u64>), String> {
    let garbage = &mut Random::new(!0);
    let mut memory = Memory::new(kept, &[0, 0], garbage).and(bytes, garbage);
    let mut answer = Lent::new(&[!0; 8], garbage);
    let number = unit::perform(call, &mut memory, &mut answer);
    kept.copy_from_slice(memory.inner());
    bytes.copy_from_slice(memory.bytes());
    match memory.margins_kept() && answer.margins_kept() {
        true => Ok((number, answer.inner().to_vec())),
        false => Err("the unit stored outside of what it was lent".into()),
    }
}

fn one_by_one(sent: &[u128], features: u64) -> Result<BTreeMap<u64, Came>, String> {
    let mut all: BTreeMap<u64, Came> = BTreeMap::new();
    for (number, &command) in sent.iter().enumerate() {
        let what = format!("command {number}, {command:#034x}");
        let fields = fields(command, features).ok_or(format!("{what}: illegal"))?;
        let mut slot = [0xA5; 16];
        let call = Call::WriteCommand {
            fields: &fields,
            features,
        };
        match on_unit(&mut [], &mut slot, call)? {
            (0, answer) if answer == [0; 8] => (),
            (number, answer) => return Err(format!("{what}: {number} with {answer:x?}")),
        }
        let written = u128::from_le_bytes(slot);
        let came = all.entry(fields[0]).or_default();
        if written == command {
            came.equal += 1;
        } else if written == command & looked_at(fields[0]) {
            came.but_for += 1;
        } else {
            return Err(format!("{what}: written as {written:#034x}"));
        }
    }
    Ok(all)
}

/// The same commands by batches round a queue. Each batch is what the writer made of its
/// commands, and a run under the same features consumes it.
fn batches(sent: &[u128], features: u64) -> Result<(), String> {
    let control = Control {
        enabled: true,
        log2size: LOG2SIZE,
        ..Control::fields(0)
    };
    let mut kept = [control.pack(), 0, 0, 0, 0];
    let mut queue = vec![0xA5; bytes(LOG2SIZE)];
    for (number, batch) in sent.chunks(BATCH).enumerate() {
        let what = format!("batch {number}");
        let legal = batch
            .iter()
            .filter_map(|&command| fields(command, features));
        let commands: Vec<u64> = legal.flatten().collect();
        let wr = Control::fields(kept[0]).wr;
        let call = Call::WriteBatch {
            commands: &commands,
            features,
        };
        match on_unit(&mut kept, &mut queue, call)? {
            (0, answer) if answer == [0; 8] => (),
            (number, answer) => return Err(format!("{what}: {number} with {answer:x?}")),
        }
        for (index, command) in (wr..).zip(batch) {
            let start = 16 * (index % control.slots()) as usize;
            let slot = queue[start..start + 16].try_into().expect("sixteen bytes");
            if u128::from_le_bytes(slot) != command & looked_at(*command as u64 & 0xFF) {
                return Err(format!("{what}: slot {} holds another", start / 16));
            }
        }
        let run = Call::Run {
            queue: &queue.clone(),
            features,
            allowance: u64::MAX,
        };
        let (number, answer) = on_unit(&mut kept, &mut [], run)?;
        if (number, answer[0], answer[1]) != (0, EMPTY, batch.len() as u64) {
            return Err(format!("{what}: a run comes to {number} with {answer:x?}"));
        }
    }
    Ok(())
}
