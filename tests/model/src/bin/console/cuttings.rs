//! Random streams, each cut in several ways: every call is compared with the model, and all cuttings must be heard alike.

use crate::compare::{Bench, Difference};
use refbridge_model::model::console::{frame, MARK, STATE};
use refbridge_model::model::message::LONGEST;
use refbridge_model::random::Random;

/// Messages, refusals and the state that remains.
#[derive(Debug, Default, PartialEq)]
struct Heard {
    messages: Vec<Vec<u8>>,
    refusals: Vec<u32>,
    remains: Vec<u8>,
}

/// How a host cuts a stream.
const CUTTINGS: [fn(&mut Random, usize) -> usize; 4] =
    [|_, left| left, |_, _| 1, |random, left| random.below(left.min(9) + 1), |random, left| random.below(left + 1)];

/// One stream from one state, in every cutting.
pub fn one_stream(bench: &mut Bench) -> Result<(), Difference> {
    let start = some_state(bench)?;
    let octets = stream(&mut bench.random);
    let mut first: Option<Heard> = None;
    for cutting in CUTTINGS {
        let heard = play(bench, start.clone(), &octets, cutting)?;
        match &first {
            Some(other) if *other != heard => {
                return Err(format!("two cuttings of {octets:02X?} are heard differently"))
            }
            Some(_) => {}
            None => first = Some(heard),
        }
    }
    Ok(())
}

/// A state that a stream left before, or a fresh one.
fn some_state(bench: &mut Bench) -> Result<Vec<u8>, Difference> {
    let mut state = vec![0xA5; STATE];
    bench.reset(&mut state)?;
    if bench.random.chance(50) {
        let octets = stream(&mut bench.random);
        state = play(bench, state, &octets, CUTTINGS[0])?.remains;
    }
    Ok(state)
}

/// Frames one behind the other; some streams have a wrong octet, some are cut short.
fn stream(random: &mut Random) -> Vec<u8> {
    let mut octets = Vec::new();
    for _ in 0..random.below(6) {
        let length = [0, 1, 2, 65, 255, 256, LONGEST - 1, LONGEST, random.below(LONGEST)][random.below(9)];
        octets.extend(frame(&random.octets(length)));
    }
    match random.below(6) {
        0 => wrong_header(random, &mut octets),
        1 => too_long(random, &mut octets),
        2 => octets.truncate(random.below(octets.len() + 1)),
        3 if !octets.is_empty() => {
            let at = random.below(octets.len());
            octets[at] = random.octet();
        }
        _ => {}
    }
    octets
}

/// A header with one wrong octet, and more behind it.
fn wrong_header(random: &mut Random, octets: &mut Vec<u8>) {
    let mut header = MARK;
    let at = random.below(MARK.len());
    header[at] ^= 1 << random.below(8);
    octets.extend(header);
    octets.extend(random.some_octets(20));
}

/// A header with a message length over 1,472, and more behind it.
fn too_long(random: &mut Random, octets: &mut Vec<u8>) {
    let any = random.within(1473, 65535) as u16;
    let length = random.pick(&[LONGEST as u16 + 1, 1535, 1536, u16::MAX, any]);
    octets.extend(MARK);
    octets.extend(length.to_be_bytes());
    octets.extend(random.some_octets(20));
}

/// Offers the octets in chunks, untaken ones again. A short room changes nothing, and later calls repeat a refusal.
fn play(
    bench: &mut Bench,
    mut state: Vec<u8>,
    octets: &[u8],
    cutting: fn(&mut Random, usize) -> usize,
) -> Result<Heard, Difference> {
    let mut heard = Heard::default();
    let mut left = octets;
    let mut idle = 0;
    while !left.is_empty() && idle < 3 {
        let size = cutting(&mut bench.random, left.len());
        if bench.random.chance(5) {
            let short = bench.random.below(LONGEST);
            bench.take(&mut state, &left[..size], short)?;
        }
        let long = LONGEST + bench.random.pick(&[0, 0, 1, 1000]);
        let (result, message) = bench.take(&mut state, &left[..size], long)?;
        if result.complete == 1 {
            heard.messages.push(message);
        }
        if result.number != 0 && result.taken > 0 {
            heard.refusals.push(result.number);
        }
        idle = if result.number != 0 { idle + 1 } else { 0 };
        left = &left[result.taken as usize..];
    }
    heard.remains = state;
    Ok(heard)
}
