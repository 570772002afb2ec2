//! Measures the compiled unit beside a straightforward version written for this (`plain/`).
//!
//! Both are given the same inputs (`cases/`) through functions of one shape (`sides.rs`).
//! Before anything is timed, each input is tried on them and on the second implementation
//! of `compare/`, and a difference ends the program. `bench/run` builds this and uses it so:
//!
//!     bench cases                what the cases are, a line each
//!     bench time                 figures, a line for each case and stack place
//!     bench grow                 the same for case h cut to fewer rows or commands
//!     bench once CASE SIDE ROWS  the case's calls, once, for counting instructions
//!     bench off CASE SIDE ROWS   the same with the queue off: the check alone
//!     bench give CASE            a run's arguments as words, for `bench/x86/run`
//!
//! CASE is a letter, SIDE `unit` or `plain`, and of the table the first ROWS rows
//! are left. Lines have fields between tabs, the first line their names.

#[allow(dead_code)]
#[path = "../compare/answers.rs"]
mod answers;
#[allow(dead_code)]
#[path = "../compare/call.rs"]
mod call;
mod cases;
mod gap;
mod give;
mod grow;
#[allow(dead_code)]
#[path = "../compare/interface.rs"]
mod interface;
#[allow(dead_code)]
#[path = "../compare/limits.rs"]
mod limits;
mod measure;
#[allow(dead_code)]
#[path = "../compare/model/mod.rs"]
mod model;
mod modelled;
mod plain;
mod plained;
#[allow(dead_code)]
#[path = "../compare/generate/random.rs"]
mod random;
#[allow(dead_code)]
#[path = "../compare/generate/rows.rs"]
mod rows;
mod sides;
mod stack;
mod verify;
#[allow(dead_code)]
#[path = "../compare/generate/world.rs"]
mod world;

use cases::{Case, Lent, ENABLED};
use sides::{Side, PLAIN, UNIT};
use std::process::ExitCode;
use verify::Totals;

const USAGE: &str =
    "usage: bench cases | time | grow | once CASE SIDE ROWS | off CASE SIDE ROWS | give CASE";

fn verified(cases: &[Case]) -> Result<Vec<Totals>, String> {
    let named =
        |case: &Case| verify::same(case).map_err(|why| format!("case {}: {why}", case.letter));
    cases.iter().map(named).collect()
}

fn describe(cases: &[Case]) -> Result<(), String> {
    let seen = verified(cases)?;
    println!("case\twhat\tper\tcall\tcalls\tparts\trows\tremoved");
    for (case, totals) in cases.iter().zip(&seen) {
        let (calls, parts, rows) = (case.calls(), case.parts(), case.lent.kept.len() / 4);
        let (letter, what, removed) = (case.letter, case.what, totals.removed);
        let (per, call) = (case.per(), case.call());
        println!("{letter}\t{what}\t{per}\t{call}\t{calls}\t{parts}\t{rows}\t{removed}");
    }
    Ok(())
}

fn time(cases: &[Case]) -> Result<(), String> {
    let seen = verified(cases)?;
    println!("case\trows\tcommands\tplace\tunit\tplain");
    for (case, figures) in cases.iter().zip(measure::all(cases, &seen)) {
        let (letter, rows, commands) = (case.letter, case.size.rows, case.size.commands());
        for figure in figures {
            let (place, unit, plain) = (figure.place, figure.unit, figure.plain);
            println!("{letter}\t{rows}\t{commands}\t{place}\t{unit:.3}\t{plain:.3}");
        }
    }
    Ok(())
}

/// The kept memory that a count is made on, and the whole second table.
fn cut(case: &Case, rows: &str, clear: u64) -> Option<Lent> {
    let rows: usize = rows.parse().ok()?;
    let mut kept = case.lent.kept.get(..1 + 4 * rows)?.to_vec();
    kept[0] &= !clear;
    let table = case.lent.table.clone();
    Some(Lent { kept, table })
}

fn find<'a>(cases: &'a [Case], letter: &str) -> Result<&'a Case, String> {
    let case = cases.iter().find(|case| case.letter == letter);
    case.ok_or("no such case".into())
}

fn once(cases: &[Case], [letter, side, rows]: [&str; 3], clear: u64) -> Result<(), String> {
    let case = find(cases, letter)?;
    let side: &Side = match side {
        "unit" => &UNIT,
        "plain" => &PLAIN,
        _ => return Err("no such side".into()),
    };
    let lent = cut(case, rows, clear).ok_or("no such number of rows")?;
    for call in 0..case.calls() {
        side.call(case, call, &mut lent.clone());
    }
    Ok(())
}

fn main() -> ExitCode {
    let arguments: Vec<String> = std::env::args().skip(1).collect();
    let arguments: Vec<&str> = arguments.iter().map(String::as_str).collect();
    gap::keep();
    let cases = cases::all();
    let done = match arguments[..] {
        ["cases"] => describe(&cases),
        ["time"] => time(&cases),
        ["grow"] => find(&cases, "h").and_then(|case| time(&grow::cases(case))),
        ["once", letter, side, rows] => once(&cases, [letter, side, rows], 0),
        ["off", letter, side, rows] => once(&cases, [letter, side, rows], ENABLED),
        ["give", letter] => find(&cases, letter).and_then(give::words),
        _ => Err(USAGE.into()),
    };
    match done {
        Ok(()) => ExitCode::SUCCESS,
        Err(why) => {
            eprintln!("bench: {why}");
            ExitCode::FAILURE
        }
    }
}
