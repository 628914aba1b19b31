//! Compares random pairs of walks by the library and by the model: number, side, offset, tail, totals and the whole list.
//!
//!     walk_comparison [--seed N] [--pairs N] [--mutants]
//!
//! With --mutants a copy of the model with a seeded fault stands in the place of the library, one after the other: each must be found.

use refbridge_model::random::Random;
use refbridge_model::walks::compare::{compare, Walks, LIST_SHORT};
use refbridge_model::walks::generate::{list_length, pair};
use refbridge_model::walks::library::{linked, Compare, MUTANTS};
use refbridge_model::walks::met::Met;
use std::process::ExitCode;

const USAGE: &str = "usage: walk_comparison [--seed N] [--pairs N] [--mutants]";

struct Options {
    seed: u64,
    pairs: u64,
    mutants: bool,
}

fn main() -> ExitCode {
    let Some(options) = read_options() else {
        eprintln!("{USAGE}");
        return ExitCode::from(2);
    };
    if options.mutants {
        return run_mutants(&options);
    }
    match linked() {
        Some(library) => run(library, &options),
        None => {
            eprintln!("walk_comparison: built without the library");
            ExitCode::from(2)
        }
    }
}

/// Every mutant must be told from the model.
fn run_mutants(options: &Options) -> ExitCode {
    let mut missed = 0;
    for (what, mutant) in MUTANTS {
        let found = (0..options.pairs)
            .find(|at| one_pair(*mutant, options.seed.wrapping_add(*at), &mut Met::default()).is_err());
        match found {
            Some(at) => println!("mutant ({what}): found at pair {}", at + 1),
            None => {
                missed += 1;
                println!("mutant ({what}): NOT FOUND in {} pairs", options.pairs);
            }
        }
    }
    println!("{} mutants, {missed} not found", MUTANTS.len());
    if missed == 0 && !MUTANTS.is_empty() {
        ExitCode::SUCCESS
    } else {
        ExitCode::FAILURE
    }
}

fn run(library: Compare, &Options { seed, pairs, .. }: &Options) -> ExitCode {
    let mut met = Met::default();
    for at in 0..pairs {
        if let Err(difference) = one_pair(library, seed.wrapping_add(at), &mut met) {
            println!("the pair of --seed {} --pairs 1: {difference}", seed.wrapping_add(at));
            println!("{} pairs compared, 1 difference", at + 1);
            return ExitCode::FAILURE;
        }
    }
    let missing = met.report();
    for what in &missing {
        println!("never met: {what}");
    }
    println!("{pairs} pairs compared, 0 differences");
    if missing.is_empty() {
        ExitCode::SUCCESS
    } else {
        ExitCode::FAILURE
    }
}

fn read_options() -> Option<Options> {
    let mut options = Options { seed: 1, pairs: 1000, mutants: false };
    let mut words = std::env::args().skip(1);
    while let Some(word) = words.next() {
        match word.as_str() {
            "--seed" => options.seed = words.next()?.parse().ok()?,
            "--pairs" => options.pairs = words.next()?.parse().ok()?,
            "--mutants" => options.mutants = true,
            _ => return None,
        }
    }
    Some(options)
}

fn one_pair(library: Compare, seed: u64, met: &mut Met) -> Result<(), String> {
    let mut random = Random::new(seed.wrapping_mul(0xD134_2543_DE82_EF95));
    let (reference, device) = pair(&mut random);
    // A list that has room for every instance tells how many entries there are.
    let unlimited = compare(&reference, &device, &mut vec![0; 20 * 200]);
    let entries = (unlimited.reference_only + unlimited.switch_only + unlimited.differing) as usize;
    let length = list_length(&mut random, entries);
    let list = random.poison(length);
    let (mut expected_list, mut list) = (list.clone(), list);
    let expected = compare(&reference, &device, &mut expected_list);
    let (walks_before, result) = ((reference.clone(), device.clone()), library(&reference, &device, &mut list));
    if expected.number == LIST_SHORT && length + 1 == 20 * entries {
        met.note_short();
    }
    met.note_pair(&reference, &device, &expected_list, &expected);
    told_apart(&expected, &expected_list, &result, &list)?;
    if walks_before != (reference, device) {
        return Err("a walk was written".to_string());
    }
    Ok(())
}

fn told_apart(expected: &Walks, expected_list: &[u8], result: &Walks, list: &[u8]) -> Result<(), String> {
    if result != expected {
        return Err(format!("expected {expected:?}, got {result:?}"));
    }
    match (0..list.len()).find(|at| list[*at] != expected_list[*at]) {
        Some(at) => Err(format!("list octet {at}: expected {:02X}, got {:02X}", expected_list[at], list[at])),
        None => Ok(()),
    }
}
