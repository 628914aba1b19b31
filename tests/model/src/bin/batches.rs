//! Compares checks of batches by the library and by the model, and plays what is accepted in several orders.
//!
//!     batches [--seed N] [--rounds N] [--sweeps N] [--mutants]
//!
//! A round is some batches for one bridge; a sweep is a short batch cut at every octet and with every octet changed. With --mutants a copy of the model with a
//! seeded fault stands in the place of the library, one after the other: each must be found.

use refbridge_model::batches::compare::{Bench, Difference};
use refbridge_model::batches::{linked, Calls, MUTANTS};
use refbridge_model::random::Random;
use std::process::ExitCode;

const USAGE: &str = "usage: batches [--seed N] [--rounds N] [--sweeps N] [--mutants]";

struct Options {
    seed: u64,
    rounds: u64,
    sweeps: u64,
    mutants: bool,
}

fn main() -> ExitCode {
    let Some(options) = read_options() else {
        eprintln!("{USAGE}");
        return ExitCode::from(2);
    };
    if options.mutants {
        return run_mutants(&options);
    }
    match linked() {
        Some(calls) => run_library(calls, &options),
        None => {
            eprintln!("batches: built without the library");
            ExitCode::from(2)
        }
    }
}

fn read_options() -> Option<Options> {
    let mut options = Options { seed: 1, rounds: 100, sweeps: 1, mutants: false };
    let mut words = std::env::args().skip(1);
    while let Some(word) = words.next() {
        match word.as_str() {
            "--seed" => options.seed = words.next()?.parse().ok()?,
            "--rounds" => options.rounds = words.next()?.parse().ok()?,
            "--sweeps" => options.sweeps = words.next()?.parse().ok()?,
            "--mutants" => options.mutants = true,
            _ => return None,
        }
    }
    Some(options)
}

fn run(bench: &mut Bench, options: &Options) -> Result<(), Difference> {
    for at in 0..options.rounds {
        let seed = options.seed.wrapping_add(at);
        let played = bench.round(&mut Random::new(seed));
        played.map_err(|said| format!("the round of --seed {seed} --rounds 1: {said}"))?;
    }
    for at in 0..options.sweeps {
        let seed = options.seed.wrapping_add(at);
        let played = bench.sweep(&mut Random::new(seed));
        played.map_err(|said| format!("the sweep of --seed {seed} --rounds 0 --sweeps 1: {said}"))?;
    }
    Ok(())
}

fn run_library(calls: Calls, options: &Options) -> ExitCode {
    let mut bench = Bench::new(calls);
    if let Err(difference) = run(&mut bench, options) {
        println!("{difference}\n{} batches compared, 1 difference", bench.compared);
        return ExitCode::FAILURE;
    }
    let missing = bench.met.report();
    for what in &missing {
        println!("never met: {what}");
    }
    println!("{} batches compared, {} played in several orders, 0 differences", bench.compared, bench.played);
    if missing.is_empty() {
        ExitCode::SUCCESS
    } else {
        ExitCode::FAILURE
    }
}

fn run_mutants(options: &Options) -> ExitCode {
    let mut missed = 0;
    for (what, check) in MUTANTS {
        let mut bench = Bench::new(Calls { check: *check, answer: None });
        match run(&mut bench, options) {
            Err(_) => println!("mutant ({what}): found at batch {}", bench.compared + 1),
            Ok(()) => {
                missed += 1;
                println!("mutant ({what}): NOT FOUND in {} batches", bench.compared);
            }
        }
    }
    println!("{} mutants, {missed} not found", MUTANTS.len());
    if missed == 0 && !MUTANTS.is_empty() {
        ExitCode::SUCCESS
    } else {
        ExitCode::FAILURE
    }
}
