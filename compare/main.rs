//! Compares the proved unit with a second implementation of document 01 and of
//! what document 02 adds.
//!
//! `model/` is written from the papers alone, by their rules and without the
//! unit's code. `generate/` makes inputs whose rows and commands collide
//! often, `phases/` decides which calls are made, and every call is made on both
//! sides: the returned number, the eight answer words, each word of the kept
//! memory and of the second table and each byte of a slot or queue that is written
//! have to be the same. Only the nights with cuts (`phases/nights/`) are played by the unit
//! alone: they have to end as the same nights without cuts did, which are compared as all
//! calls are. At the end a table says what was compared.
//!
//! Build, with LIB the folder that holds the unit's static library libNAME.a:
//!
//!     rustc --edition 2021 -O compare/main.rs -L LIB -l static=NAME -o compare.out
//!
//! Run: `compare.out [seed]`, the seed in decimal or as 0x... in hexadecimal;
//! the same seed repeats the same calls. It exits 0 if all calls agreed and each
//! kind of call, end, refusal, outcome and reason occurred; 1 at the first
//! difference, after printing what is needed to repeat it, or if the unit doesn't
//! return; 2 if a kind never occurred or the arguments make no sense.
//!
//! `compare.out linux FILE FEATURES` takes the commands that a guest sent, 16 bytes each,
//! has the model read and the unit write them (linux.rs), and exits 0 if they came back
//! byte for byte, but for bits that aren't looked at.
//!
//! `compare.out merge FILE FEATURES` takes such commands, merges single pages into ranges,
//! has the unit check each batch of them, and wrong mergings, too (merge.rs). It exits 0 if
//! every batch got a yes and every wrong merging its row.
//!
//! `compare.out wrong NAME` compares a wrong unit (wrong.rs) instead and has to
//! exit 1; `compare.out wrong` does so for all of them and exits 0 if each was
//! caught.

mod answers;
mod call;
mod checker;
mod generate;
mod interface;
mod laws;
mod lent;
mod limits;
mod linux;
mod merge;
mod model;
mod modelled;
mod phases;
mod report;
mod tally;
mod unit;
mod watchdog;
mod wrong;

use checker::Checker;
use std::process::ExitCode;
use wrong::Wrong;

const DEFAULT_SEED: u64 = 0x7A61_6876_656E_6E6F;

fn number(text: &str) -> Option<u64> {
    match text.strip_prefix("0x") {
        Some(digits) => u64::from_str_radix(digits, 16).ok(),
        None => text.parse().ok(),
    }
}

fn main() -> ExitCode {
    let arguments: Vec<String> = std::env::args().skip(1).collect();
    let arguments: Vec<&str> = arguments.iter().map(String::as_str).collect();
    if arguments == ["wrong"] {
        return ExitCode::from(u8::from(!wrong::all_caught()));
    }
    if let ["linux", file, features] = arguments[..] {
        if let Some(features) = number(features) {
            return linux::written_back(file, features);
        }
    }
    if let ["merge", file, features] = arguments[..] {
        if let Some(features) = number(features) {
            return merge::merged(file, features);
        }
    }
    let named = |name: &str| wrong::all().into_iter().find(|wrong| wrong.name == name);
    let asked = match arguments[..] {
        [] => Some((DEFAULT_SEED, None)),
        ["wrong", name] => named(name).map(|wrong| (DEFAULT_SEED, Some(wrong))),
        [text] => number(text).map(|seed| (seed, None)),
        _ => None,
    };
    let Some((seed, wrong)) = asked else {
        eprintln!(
            "usage: compare [seed] | compare linux file features | compare merge file features | \
             compare wrong [name]"
        );
        return ExitCode::from(2);
    };
    compare(seed, wrong)
}

/// Every phase on the unit, or on a wrong one in its place.
fn compare(seed: u64, wrong: Option<Wrong>) -> ExitCode {
    println!("seed {seed:#x}");
    watchdog::start(seed);
    let writes = wrong.as_ref().is_some_and(Wrong::writes);
    let checks = wrong.as_ref().is_some_and(Wrong::checks);
    let cut = wrong.as_ref().is_some_and(Wrong::cut);
    let mut checker = Checker::new(seed, wrong);
    // Whoever is called again wrongly has to be caught by the nights.
    if cut {
        phases::nights::nights(&mut checker);
    }
    phases::cases::cases(&mut checker);
    phases::reasons::cases::cases(&mut checker);
    phases::pending::cases::cases(&mut checker);
    phases::upper::cases::cases(&mut checker);
    phases::doubles::cases::cases(&mut checker);
    phases::hyp::cases::cases(&mut checker);
    phases::ranges::cases::cases(&mut checker);
    phases::regions::cases::cases(&mut checker);
    phases::events::cases::cases(&mut checker);
    phases::writer::cases::cases(&mut checker);
    phases::check::cases::cases(&mut checker);
    // No other wrong unit is caught by these, so that they come first for none but one
    // that writes or checks wrongly.
    if writes {
        phases::writer::writer(&mut checker);
    }
    if checks {
        phases::check::check(&mut checker);
    }
    phases::regions::regions(&mut checker);
    phases::hyp::hyp(&mut checker);
    phases::events::events(&mut checker);
    phases::limits::limits(&mut checker);
    phases::reasons::reasons(&mut checker);
    phases::pending::pending(&mut checker);
    phases::upper::upper(&mut checker);
    phases::doubles::doubles(&mut checker);
    phases::ranges::ranges(&mut checker);
    if !writes {
        phases::writer::writer(&mut checker);
    }
    if !checks {
        phases::check::check(&mut checker);
    }
    phases::commands::sweeps(&mut checker);
    phases::formats::sweeps(&mut checker);
    phases::controls::sweeps(&mut checker);
    phases::attributes::sweeps(&mut checker);
    phases::single::accepted(&mut checker);
    phases::single::damaged(&mut checker);
    phases::cuts::cuts(&mut checker);
    phases::sequences::sequences(&mut checker);
    if !cut {
        phases::nights::nights(&mut checker);
    }

    println!();
    let missing = checker.tally.print();
    if missing > 0 {
        println!("\n{missing} kinds never occurred");
        return ExitCode::from(2);
    }
    println!("\nno difference");
    ExitCode::SUCCESS
}
