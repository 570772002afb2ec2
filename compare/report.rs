//! The last words of a run that found a difference: enough to repeat the call.

use crate::call::{Call, Reply, NAMES};

/// One call, with what each side made of it.
pub struct Scene<'a> {
    pub seed: u64,
    pub phase: &'static str,
    pub serial: u64,
    pub before: &'a [u64],
    /// The second table before the call.
    pub table: &'a [u64],
    pub call: Call<'a>,
    pub unit: (Reply, &'a [u64]),
    pub model: (Reply, &'a [u64]),
    /// What unit and model left in the second table, if that is known.
    pub tables: [&'a [u64]; 2],
    /// The slot or queue before the call, and what unit and model left there.
    pub bytes: &'a [u8],
    pub written: [&'a [u8]; 2],
}

/// Prints the scene and ends the program.
pub fn stop(scene: &Scene, what: &str) -> ! {
    println!("\nDIFFERENCE: {what}");
    println!(
        "seed {:#x}, phase \"{}\", compared call {}",
        scene.seed, scene.phase, scene.serial
    );
    print_call(&scene.call);
    print_memory(scene.before);
    println!("second table, {} words:", scene.table.len());
    print_lines(scene.table, 2);
    if !scene.bytes.is_empty() {
        print_bytes("slots before the call", scene.bytes);
    }
    for (side, (reply, _)) in [("unit", scene.unit), ("model", scene.model)] {
        let answer: Vec<String> = reply
            .answer
            .iter()
            .map(|word| format!("{word:#x}"))
            .collect();
        println!("{side} returned {} with {}", reply.number, answer.join(" "));
    }
    for (place, (theirs, ours)) in scene.unit.1.iter().zip(scene.model.1).enumerate() {
        if theirs != ours {
            println!("word {place} after the call: unit {theirs:#018x}, model {ours:#018x}");
        }
    }
    for (place, (theirs, ours)) in scene.tables[0].iter().zip(scene.tables[1]).enumerate() {
        if theirs != ours {
            println!("word {place} of the table: unit {theirs:#018x}, model {ours:#018x}");
        }
    }
    for (place, (theirs, ours)) in scene.written[0].iter().zip(scene.written[1]).enumerate() {
        if theirs != ours {
            println!("byte {place} after the call: unit {theirs:#04x}, model {ours:#04x}");
        }
    }
    std::process::exit(1)
}

fn print_call(call: &Call) {
    print!("call {}", NAMES[call.index()]);
    match *call {
        Call::Run {
            queue,
            features,
            allowance,
        } => {
            println!(" features {features:#x} allowance {allowance:#x}");
            print_bytes("queue", queue);
        }
        Call::WriteCommand { fields, features } => {
            println!(" features {features:#x}, fields");
            print_lines(fields, 4);
        }
        Call::WriteBatch { commands, features } => {
            let count = commands.len();
            println!(" features {features:#x}, commands of {count} words");
            print_lines(commands, 4);
        }
        Call::CheckBatch {
            original,
            proposed,
            features,
        } => {
            println!(" features {features:#x}");
            print_bytes("original", original);
            print_bytes("proposed", proposed);
        }
        Call::Fill {
            row,
            words,
            allowance,
        } => {
            println!(" row {row:#x} words {words:#018x?} allowance {allowance:#x}");
        }
        Call::TableFill {
            row,
            words,
            allowance,
        } => {
            println!(" row {row:#x} words {words:#018x?} allowance {allowance:#x}");
        }
        Call::Doorbell { wr } => println!(" wr {wr:#x}"),
        Call::Enable { on } => println!(" on {on:#x}"),
        Call::Translate(asked) => println!(" {asked:#x?}"),
        Call::EventWrite { record, allowance } => {
            println!(" record {record:02x?} allowance {allowance:#x}");
        }
        Call::Acknowledge | Call::State | Call::ClearPending => println!(),
        Call::EventRead | Call::EventAcknowledge => println!(),
    }
}

fn print_bytes(what: &str, bytes: &[u8]) {
    let words: Vec<u64> = bytes.chunks(8).map(little_endian).collect();
    println!("{what}, {} bytes:", bytes.len());
    print_lines(&words, 2);
}

fn little_endian(bytes: &[u8]) -> u64 {
    bytes
        .iter()
        .rev()
        .fold(0, |word, &byte| word << 8 | u64::from(byte))
}

/// The control or index word on a line of its own, then a row or slot to each.
fn print_memory(kept: &[u64]) {
    let (control, rows) = kept.split_at(kept.len().min(1));
    println!("memory before the call, {} words:", kept.len());
    print_lines(control, 1);
    print_lines(rows, 4);
}

fn print_lines(words: &[u64], width: usize) {
    for line in words.chunks(width) {
        let line: Vec<String> = line.iter().map(|word| format!("{word:#018x}")).collect();
        println!("  {}", line.join(" "));
    }
}
