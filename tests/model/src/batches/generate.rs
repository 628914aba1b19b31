//! Blocks and batches in octets: as drafts give them, or damaged in frames, messages or block.

use super::draft::draft;
use super::judge::MOST_MESSAGES;
use crate::generate::blocks::pokes;
use crate::generate::damage::{about_longest, damaged, many_bindings, noise, wrong_inside};
use crate::generate::sets::{careful, faulty};
use crate::generate::start;
use crate::model::bridge::Bridge;
use crate::model::console::{frame, HEADER};
use crate::model::message::{write_request, Binding, Content, Kind, Request, LONGEST};
use crate::model::names::{MOST_PAIRS, MOST_ROWS};
use crate::random::Random;

/// A fresh bridge, or one with numbers and rows of all kinds; its tables are often full or nearly so.
pub fn bridge(random: &mut Random) -> Bridge {
    let fresh = start::fresh(random);
    if random.chance(20) {
        return fresh;
    }
    let mut bridge = start::filled(random, fresh);
    let (vlans, statics) = (MOST_ROWS - random.below(40), MOST_ROWS - random.below(40));
    let pairs = MOST_PAIRS - random.below(20);
    if random.chance(60) {
        while bridge.vlans.len() > vlans {
            bridge.vlans.pop_first();
        }
        while bridge.statics.len() > statics {
            bridge.statics.pop_last();
        }
        while bridge.pairs.len() > pairs {
            bridge.pairs.pop_first();
        }
    }
    bridge
}

/// A batch for a bridge, most of them without damage.
pub fn batch(random: &mut Random, bridge: &Bridge) -> Vec<u8> {
    let messages = draft(random, bridge);
    let mut frames: Vec<Vec<u8>> = messages.into_iter().map(|bindings| framed(random, Kind::Set, bindings)).collect();
    if random.chance(60) {
        return frames.concat();
    }
    if random.chance(15) {
        // The most messages that a batch can have, or as many as are too many.
        let count = MOST_MESSAGES + random.below(2);
        frames.resize_with(count, || framed(random, Kind::Set, Vec::new()));
    }
    if frames.is_empty() || random.chance(5) {
        return random.some_octets(200);
    }
    let at = match random.below(4) {
        0 => frames.len() - 1,
        _ => random.below(frames.len()),
    };
    frames[at] = changed(random, bridge, &frames[at]);
    let mut octets = frames.concat();
    match random.below(10) {
        0 => octets.truncate(random.below(octets.len() + 1)),
        1 => octets.extend(random.some_octets(8)),
        2 => octets.push(random.pick(&[0x7F, 0])),
        _ => {}
    }
    octets
}

fn framed(random: &mut Random, kind: Kind, bindings: Vec<Binding>) -> Vec<u8> {
    frame(&write_request(&Request { kind, id: random.number() as u32, bindings }))
}

/// A frame with something wrong in its header or in its message, or nearly so.
fn changed(random: &mut Random, bridge: &Bridge, old: &[u8]) -> Vec<u8> {
    let request = Request { kind: Kind::Set, id: 7, bindings: faulty(random, bridge) };
    match random.below(13) {
        0..=2 => frame(&damaged(random, &request)),
        3 => frame(&a_set(random, many_bindings)),
        4 => frame(&a_set(random, wrong_inside)),
        5 => frame(&noise(random)),
        6 => frame(&asking(random, request)),
        7 => frame(&[]),
        8 => {
            let octets = LONGEST - 1 + random.below(4);
            frame(&about_longest(random, &request, octets))
        }
        9 => old[..random.below(old.len())].to_vec(),
        10 => old[..random.below(HEADER)].to_vec(),
        _ => other_header(random, old),
    }
}

/// A get or a get-next, as it should be or damaged behind its kind too.
fn asking(random: &mut Random, request: Request) -> Vec<u8> {
    let kind = random.pick(&[Kind::Get, Kind::GetNext]);
    let mut bindings = request.bindings;
    bindings.iter_mut().for_each(|binding| binding.content = Content::Null);
    let request = Request { kind, id: request.id, bindings };
    if random.chance(50) {
        write_request(&request)
    } else {
        damaged(random, &request)
    }
}

/// Octets that say that they are a set.
fn a_set(random: &mut Random, made: fn(&mut Random) -> Vec<u8>) -> Vec<u8> {
    loop {
        let octets = made(random);
        if octets.get(3) == Some(&3) {
            return octets;
        }
    }
}

/// One of the header's octets, or its length, becomes another.
fn other_header(random: &mut Random, old: &[u8]) -> Vec<u8> {
    let mut octets = old.to_vec();
    let length = (old.len() - HEADER) as u16;
    let other =
        random.pick(&[length + 1, length.saturating_sub(1), 0, LONGEST as u16, LONGEST as u16 + 1, 0x8000, 0xFFFF]);
    match random.below(3) {
        0 => octets[random.below(3)] = random.pick(&[0, 2, 3, 0x7E, 0x7F, 0xFF]),
        1 => octets[random.below(HEADER)] ^= 1 << random.below(8),
        _ => octets[3..HEADER].copy_from_slice(&other.to_be_bytes()),
    }
    octets
}

/// A block that is damaged from outside, or has another length.
pub fn hurt(random: &mut Random, bridge: &Bridge) -> Vec<u8> {
    let mut block = bridge.image();
    if random.chance(20) {
        let length = random.pick(&[0, 1, block.len() - 1, block.len() + 1, 2 * block.len()]);
        block.resize(length, 0);
        return block;
    }
    for (offset, octets) in pokes(random, bridge, &block) {
        block[offset..offset + octets.len()].copy_from_slice(&octets);
    }
    block
}

/// Few short messages, for batches that are cut and changed at every octet.
pub fn short_batch(random: &mut Random, bridge: &Bridge) -> Vec<u8> {
    let mut frames = Vec::new();
    for _ in 0..2 + random.below(2) {
        let mut bindings = careful(random, bridge);
        bindings.truncate(2);
        frames.push(framed(random, Kind::Set, bindings));
    }
    frames.concat()
}
