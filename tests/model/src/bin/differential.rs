//! Plays random histories on the library and on the model, and compares numbers, counts, answers, rooms and blocks.
//!
//!     differential [--seed N] [--histories N] [--seconds N] [--mutant N | --mutants]
//!
//! Without --mutant the library is the one linked in; mutant 0 is the model itself behind octets.

use refbridge_model::case_file::case_file;
use refbridge_model::fixed::{compare_set_up, compare_timers};
use refbridge_model::generate::{scripts, start};
use refbridge_model::library::{linked, Library, MUTANTS, STAND_IN};
use refbridge_model::player::{play, Failure, Player};
use refbridge_model::random::Random;
use refbridge_model::shrink::shrink;
use refbridge_model::step::History;
use refbridge_model::sweeps::{
    every_block_octet, every_frame, every_name, every_pair, every_range, every_request_octet,
};
use refbridge_model::tally::Tally;
use std::panic::{catch_unwind, AssertUnwindSafe};
use std::process::ExitCode;
use std::time::{Duration, Instant};

const USAGE: &str = "usage: differential [--seed N] [--histories N] [--seconds N] [--mutant N | --mutants]";

struct Options {
    seed: u64,
    /// As many are played as the time allows where no number is asked for; otherwise fewer are a failure.
    histories: Option<u64>,
    seconds: u64,
    mutant: Option<usize>,
    all_mutants: bool,
}

/// What is tried in order and not at random, after the histories.
const SWEEPS: [(&str, Sweep); 6] = [
    ("every octet of a block", every_block_octet),
    ("every range", every_range),
    ("every octet of a request", every_request_octet),
    ("every name", every_name),
    ("every largest frame", every_frame),
    ("every two ports", every_pair),
];

type Sweep = fn(Library, &mut Random, &mut Tally) -> Result<(), Box<(History, Failure)>>;

/// Where a run ended.
enum Outcome {
    Same { histories: u64 },
    Differs { histories: u64, difference: String, case: String },
}

fn main() -> ExitCode {
    let Some(options) = read_options() else {
        eprintln!("{USAGE}");
        return ExitCode::from(2);
    };
    if options.all_mutants {
        return run_mutants(&options);
    }
    let library = match options.mutant {
        None => linked(),
        Some(0) => Some(STAND_IN),
        Some(mutant) => MUTANTS.get(mutant - 1).map(|(_, library)| *library),
    };
    match library {
        Some(library) => run_once(library, &options),
        None => {
            eprintln!("differential: built without this library or mutant");
            ExitCode::from(2)
        }
    }
}

fn read_options() -> Option<Options> {
    let mut options = Options { seed: 1, histories: None, seconds: 60, mutant: None, all_mutants: false };
    let mut words = std::env::args().skip(1);
    while let Some(word) = words.next() {
        if word == "--mutants" {
            options.all_mutants = true;
            continue;
        }
        let number: u64 = words.next()?.parse().ok()?;
        match word.as_str() {
            "--seed" => options.seed = number,
            "--histories" => options.histories = Some(number),
            "--seconds" => options.seconds = number,
            "--mutant" => options.mutant = usize::try_from(number).ok(),
            _ => return None,
        }
    }
    Some(options)
}

fn run_once(library: Library, options: &Options) -> ExitCode {
    let mut tally = Tally::default();
    match run(library, options, &mut tally) {
        Outcome::Differs { histories, difference, case } => {
            println!("{difference}\n{case}");
            println!("{histories} histories, {} calls, 1 difference", tally.calls);
            ExitCode::FAILURE
        }
        Outcome::Same { histories } => {
            let missing = tally.report();
            for what in &missing {
                println!("never met: {what}");
            }
            let wanted = options.histories.unwrap_or(histories);
            if histories < wanted {
                println!("{histories} histories of {wanted} in {} seconds", options.seconds);
            }
            println!("{histories} histories, {} calls, 0 differences", tally.calls);
            if missing.is_empty() && histories == wanted {
                ExitCode::SUCCESS
            } else {
                ExitCode::FAILURE
            }
        }
    }
}

/// Every mutant must be told from the model. A fault may lead a mutant where it ends by itself: that is found too.
fn run_mutants(options: &Options) -> ExitCode {
    let mut missed = 0;
    std::panic::set_hook(Box::new(|_| {}));
    for (what, library) in MUTANTS {
        let mut tally = Tally::default();
        match catch_unwind(AssertUnwindSafe(|| run(*library, options, &mut tally))) {
            Err(_) => println!("{what}: found in call {}: it has no answer", tally.calls),
            Ok(Outcome::Differs { histories, difference, .. }) => {
                println!("{what}: found in history {histories}, call {}: {difference}", tally.calls);
            }
            Ok(Outcome::Same { histories }) => {
                missed += 1;
                println!("{what}: NOT FOUND in {histories} histories");
            }
        }
    }
    println!("counted: {} seeded faults found", MUTANTS.len() - missed);
    println!("{} mutants, {missed} not found", MUTANTS.len());
    if missed == 0 && !MUTANTS.is_empty() {
        ExitCode::SUCCESS
    } else {
        ExitCode::FAILURE
    }
}

fn run(library: Library, options: &Options, tally: &mut Tally) -> Outcome {
    let mut random = Random::new(options.seed);
    let fixed = compare_set_up(library, &mut random, tally).and_then(|()| compare_timers(library, &mut random, tally));
    if let Err(difference) = fixed {
        return Outcome::Differs { histories: 0, difference, case: String::new() };
    }
    let differs = |histories, title: &str, failed: Box<(History, Failure)>| {
        let difference = format!("{title}: {}", failed.1.difference);
        let case = if options.all_mutants { String::new() } else { shortest_case(library, *failed) };
        Outcome::Differs { histories, difference, case }
    };
    let until = Instant::now() + Duration::from_secs(options.seconds);
    let mut histories = 0;
    while histories < options.histories.unwrap_or(u64::MAX) && Instant::now() < until {
        let seed = options.seed + histories;
        histories += 1;
        if let Err(failed) = one_history(library, seed, tally) {
            return differs(histories, &format!("history with --seed {seed}"), failed);
        }
    }
    for (title, sweep) in SWEEPS {
        if let Err(failed) = sweep(library, &mut random, tally) {
            return differs(histories, title, failed);
        }
    }
    Outcome::Same { histories }
}

/// Generates a history while it is played; on a difference gives the steps so far.
fn one_history(library: Library, seed: u64, tally: &mut Tally) -> Result<(), Box<(History, Failure)>> {
    let mut random = Random::new(seed.wrapping_mul(0xD134_2543_DE82_EF95));
    let fresh = start::fresh(&mut random);
    let filled = random.chance(50);
    tally.note("start, fresh or filled", u32::from(filled));
    let start = if filled { start::filled(&mut random, fresh) } else { fresh };
    let mut history = History { start, steps: Vec::new() };
    let mut player = match Player::start(library, &history.start, tally) {
        Ok(player) => player,
        Err(difference) => return Err(Box::new((history, Failure { difference, step: 0, block: Box::default() }))),
    };
    let wanted = [30, 100, 400][random.below(3)];
    let fills = !filled && random.chance(20);
    // A bridge of one port has no pairs to fill a table with, so that this may be nothing.
    let mut steps = if fills { scripts::fill(&mut random, &history.start) } else { Vec::new() };
    while history.steps.len() < wanted {
        if steps.is_empty() {
            steps = player.next_steps(&mut random);
        }
        for step in std::mem::take(&mut steps) {
            let played = player.play(&step);
            history.steps.push(step);
            if let Err(difference) = played {
                let failure = Failure { difference, step: history.steps.len(), block: player.twin.block };
                return Err(Box::new((history, failure)));
            }
        }
    }
    Ok(())
}

/// The history made short and written as a case file.
fn shortest_case(library: Library, (history, failure): (History, Failure)) -> String {
    let history = shrink(library, history, Duration::from_secs(60));
    let failure = play(library, &history).err().unwrap_or(failure);
    case_file(&history, &failure)
}
