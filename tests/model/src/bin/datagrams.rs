//! Reads and writes random datagrams on the library and on the model, and compares numbers, counts, places, offsets and rooms.
//!
//!     datagrams [--seed N] [--rounds N]

use refbridge_model::datagram::generate::{any_datagram, any_response, damage};
use refbridge_model::datagram::read::read;
use refbridge_model::datagram::write::write;
use refbridge_model::datagram::LONGEST;
use refbridge_model::datagram_calls::{linked, Calls, Given};
use refbridge_model::random::Random;
use std::collections::BTreeMap;
use std::process::ExitCode;

const TITLES: [&str; 3] = ["requests read", "captured read", "written"];
/// The numbers that each of the three must have given.
const REQUIRED: [&[u32]; 3] =
    [&[0, 1, 7, 8, 16, 17, 18, 19, 20], &[0, 1, 7, 8, 16, 17, 18, 19, 20], &[0, 1, 4, 5, 6, 7, 8, 19, 20]];
/// Comparisons that a round makes at least.
const LEAST: u64 = 12;

struct Compared {
    calls: Calls,
    numbers: BTreeMap<(usize, u32), u64>,
    made: u64,
    round_trips: u64,
}

type Difference = String;

fn hex(octets: &[u8]) -> String {
    octets.iter().map(|x| format!("{x:02x}")).collect()
}

/// A room that is long enough, unless chance will have it.
fn any_room(random: &mut Random) -> Vec<u8> {
    let length = if random.chance(2) { random.below(LONGEST) } else { LONGEST + random.below(3) };
    random.poison(length)
}

/// The room afterwards, where some octets were put at its start.
fn after(room: &[u8], octets: &[u8]) -> Vec<u8> {
    let mut after = room.to_vec();
    after[..octets.len()].copy_from_slice(octets);
    after
}

fn compare_reading(compared: &mut Compared, random: &mut Random, datagram: &[u8]) -> Result<(), Difference> {
    for (at, responses) in [(0, false), (1, true)] {
        let before = any_room(random);
        let mut room = before.clone();
        let call = if responses { compared.calls.from_captured } else { compared.calls.from_datagram };
        let got = call(datagram, &mut room);
        let (want, want_room) = if before.len() < LONGEST {
            (Given { number: 1, ..Given::default() }, before)
        } else {
            match read(datagram, responses) {
                Err(number) => (Given { number, ..Given::default() }, before),
                Ok(m) => {
                    let place = (m.community_at as u32, m.community_len as u32);
                    let given = Given { number: 0, count: m.octets.len() as u32, community: place, offset: 0 };
                    (given, after(&before, &m.octets))
                }
            }
        };
        compared.made += 1;
        *compared.numbers.entry((at, want.number)).or_default() += 1;
        if got != want || room != want_room {
            return Err(format!("{}: {got:?}, not {want:?}, of {}", TITLES[at], hex(datagram)));
        }
    }
    Ok(())
}

fn compare_writing(
    compared: &mut Compared,
    random: &mut Random,
    message: &[u8],
    community: &[u8],
) -> Result<(), Difference> {
    let before = any_room(random);
    let mut room = before.clone();
    let got = (compared.calls.to_datagram)(message, community, &mut room);
    let (want, want_room) = if before.len() < LONGEST {
        (Given { number: 1, ..Given::default() }, before)
    } else {
        match write(message, community) {
            Err((number, offset)) => (Given { number, offset, ..Given::default() }, before),
            Ok(octets) => (Given { count: octets.len() as u32, ..Given::default() }, after(&before, &octets)),
        }
    };
    compared.made += 1;
    *compared.numbers.entry((2, want.number)).or_default() += 1;
    if got != want || room != want_room {
        return Err(format!("written: {got:?}, not {want:?}, of {} for {}", hex(message), hex(community)));
    }
    if got.number == 0 {
        reads_back(compared, &room[..got.count as usize], message, community)?;
    }
    Ok(())
}

/// What the library wrote is read by the library as what it was.
fn reads_back(compared: &mut Compared, datagram: &[u8], message: &[u8], community: &[u8]) -> Result<(), Difference> {
    let mut room = vec![0; LONGEST];
    let got = (compared.calls.from_captured)(datagram, &mut room);
    let (at, len) = (got.community.0 as usize, got.community.1 as usize);
    compared.round_trips += 1;
    if got.number != 0 || &room[..got.count as usize] != message || &datagram[at..at + len] != community {
        return Err(format!("read back otherwise: {} for {}", hex(message), hex(community)));
    }
    Ok(())
}

/// A datagram and a response, as they are, damaged, and cut at an octet; one in 50 is cut at every octet.
fn round(compared: &mut Compared, random: &mut Random) -> Result<(), Difference> {
    let datagram = any_datagram(random);
    compare_reading(compared, random, &datagram)?;
    for _ in 0..3 {
        let mut damaged = datagram.clone();
        damage(random, &mut damaged);
        compare_reading(compared, random, &damaged)?;
    }
    let message = any_response(random);
    let size = random.pick(&[0, 6, 127, 128, 255, 256, 1000, 1472, 1473]);
    let community = random.octets(size);
    compare_writing(compared, random, &message, &community)?;
    for _ in 0..3 {
        let mut damaged = message.clone();
        damage(random, &mut damaged);
        compare_writing(compared, random, &damaged, &community)?;
    }
    if random.chance(2) {
        for end in 0..datagram.len() {
            compare_reading(compared, random, &datagram[..end])?;
        }
        for end in 0..message.len() {
            compare_writing(compared, random, &message[..end], &community)?;
        }
    }
    Ok(())
}

fn option(words: &[String], name: &str, otherwise: u64) -> u64 {
    let at = words.iter().position(|word| word == name);
    at.map_or(otherwise, |at| words[at + 1].parse().expect("a number"))
}

fn main() -> ExitCode {
    let words: Vec<String> = std::env::args().collect();
    let (seed, rounds) = (option(&words, "--seed", 1), option(&words, "--rounds", 1000));
    let mut random = Random::new(seed);
    let Some(calls) = linked() else {
        eprintln!("datagrams: built without the library");
        return ExitCode::from(2);
    };
    let mut compared = Compared { calls, numbers: BTreeMap::new(), made: 0, round_trips: 0 };
    for _ in 0..rounds {
        if let Err(difference) = round(&mut compared, &mut random) {
            println!("{difference}");
            return ExitCode::FAILURE;
        }
    }
    let mut missing = 0;
    for (at, title) in TITLES.iter().enumerate() {
        let count = |number| compared.numbers.get(&(at, number)).copied().unwrap_or(0);
        let counts: Vec<String> = REQUIRED[at].iter().map(|&number| format!("{number}: {}", count(number))).collect();
        println!("{title}, by number: {}", counts.join(", "));
        missing += REQUIRED[at].iter().filter(|&&number| count(number) == 0).count();
    }
    println!("{rounds} rounds, {} calls, {} read back, 0 differences", compared.made, compared.round_trips);
    if missing > 0 || compared.made < LEAST * rounds || compared.round_trips == 0 {
        println!("{missing} numbers never came up, or fewer calls than {LEAST} a round");
        return ExitCode::FAILURE;
    }
    ExitCode::SUCCESS
}
