//! Compares the library's run tally with the model's: small runs exhaustively, lists at the ends of their range, and random histories.
//!
//!     tallies [--seed N] [--histories N] [--faults]
//!
//! With --faults the calls under test are wrong tallies, each with one fault: every one must be found.

use refbridge_model::random::Random;
use refbridge_model::runs::calls::{linked, Calls};
use refbridge_model::runs::check::Check;
use refbridge_model::runs::faults::FAULTS;
use std::process::ExitCode;

struct Options {
    seed: u64,
    histories: u64,
    faults: bool,
}

fn main() -> ExitCode {
    let Some(options) = read_options() else {
        eprintln!("usage: tallies [--seed N] [--histories N] [--faults]");
        return ExitCode::from(2);
    };
    if options.faults {
        return run_faults(&options);
    }
    match linked() {
        Some(calls) => run_library(calls, &options),
        None => {
            eprintln!("tallies: built without the library");
            ExitCode::from(2)
        }
    }
}

fn read_options() -> Option<Options> {
    let mut options = Options { seed: 1, histories: 2000, faults: false };
    let mut words = std::env::args().skip(1);
    while let Some(word) = words.next() {
        match word.as_str() {
            "--faults" => options.faults = true,
            "--seed" => options.seed = words.next()?.parse().ok()?,
            "--histories" => options.histories = words.next()?.parse().ok()?,
            _ => return None,
        }
    }
    Some(options)
}

fn run(check: &mut Check, options: &Options) -> Result<(), String> {
    check.every_length()?;
    check.every_small_run()?;
    for history in 0..options.histories {
        let seed = options.seed + history;
        check.history(&mut Random::new(seed)).map_err(|said| format!("history with --seed {seed}: {said}"))?;
    }
    Ok(())
}

fn run_library(calls: Calls, options: &Options) -> ExitCode {
    let mut check = Check::new(calls);
    if let Err(difference) = run(&mut check, options) {
        println!("{difference}\n{} calls compared, 1 difference", check.compared);
        return ExitCode::FAILURE;
    }
    let missing = check.missing();
    for what in &missing {
        println!("never met: {what}");
    }
    println!("{} histories, {} calls compared, 0 differences", options.histories, check.compared);
    if missing.is_empty() {
        ExitCode::SUCCESS
    } else {
        ExitCode::FAILURE
    }
}

fn run_faults(options: &Options) -> ExitCode {
    let mut missed = 0;
    for (what, calls) in FAULTS {
        let mut check = Check::new(calls);
        match run(&mut check, options) {
            Err(difference) => println!("{what}: found at call {}: {difference}", check.compared),
            Ok(()) => {
                missed += 1;
                println!("{what}: NOT FOUND in {} calls", check.compared);
            }
        }
    }
    println!("{} faults, {missed} not found", FAULTS.len());
    if missed == 0 {
        ExitCode::SUCCESS
    } else {
        ExitCode::FAILURE
    }
}
