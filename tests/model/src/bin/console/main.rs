//! Plays streams on the library's console calls and on the model, and compares results, rooms and states.
//!
//!     console --seed N --streams N --least N      the linked library; fails where fewer calls than --least were compared
//!     console --seed N --streams N --faults       the model with each seeded fault in its place: every one must be found

mod calls;
mod compare;
mod cuttings;
mod guarded;
mod states;

use calls::{linked, Calls, FAULTS};
use compare::{Bench, Difference};
use std::process::ExitCode;

const USAGE: &str = "usage: console --seed N --streams N (--least N | --faults)";

#[derive(Default)]
struct Options {
    seed: u64,
    streams: u64,
    least: u64,
    faults: bool,
}

fn main() -> ExitCode {
    let Some(options) = read_options() else {
        eprintln!("{USAGE}");
        return ExitCode::from(2);
    };
    if options.faults {
        return find_faults(&options);
    }
    match linked() {
        Some(library) => compare_library(library, &options),
        None => {
            eprintln!("console: built without the library");
            ExitCode::from(2)
        }
    }
}

fn read_options() -> Option<Options> {
    let mut options = Options::default();
    let mut words = std::env::args().skip(1);
    while let Some(word) = words.next() {
        match word.as_str() {
            "--faults" => options.faults = true,
            "--seed" => options.seed = words.next()?.parse().ok()?,
            "--streams" => options.streams = words.next()?.parse().ok()?,
            "--least" => options.least = words.next()?.parse().ok()?,
            _ => return None,
        }
    }
    (options.streams > 0 && (options.least > 0 || options.faults)).then_some(options)
}

fn run(bench: &mut Bench, streams: u64) -> Result<(), Difference> {
    for _ in 0..streams {
        cuttings::one_stream(bench)?;
    }
    states::every_octet(bench)?;
    states::numbers(bench)?;
    states::lengths(bench)
}

fn compare_library(library: Calls, options: &Options) -> ExitCode {
    let mut bench = Bench::new(library, options.seed);
    let outcome = run(&mut bench, options.streams);
    for (what, count) in &bench.met {
        println!("  {what}: {count}");
    }
    let missing = bench.missing();
    for what in &missing {
        println!("never met: {what}");
    }
    let (compared, least) = (bench.compared, options.least);
    match &outcome {
        Err(difference) => println!("after {compared} calls: {difference}"),
        Ok(()) => {
            println!(
                "{} streams, {compared} calls compared (at least {least} announced), 0 differences",
                options.streams
            )
        }
    }
    if outcome.is_ok() && missing.is_empty() && compared >= least {
        ExitCode::SUCCESS
    } else {
        ExitCode::FAILURE
    }
}

fn find_faults(options: &Options) -> ExitCode {
    let mut missed = 0;
    for (what, faulty) in FAULTS {
        let mut bench = Bench::new(*faulty, options.seed);
        match run(&mut bench, options.streams) {
            Err(_) => println!("  {what}: found after {} calls", bench.compared),
            Ok(()) => {
                missed += 1;
                println!("  {what}: NOT FOUND");
            }
        }
    }
    println!("{} seeded faults, {missed} not found", FAULTS.len());
    if missed == 0 {
        ExitCode::SUCCESS
    } else {
        ExitCode::FAILURE
    }
}
