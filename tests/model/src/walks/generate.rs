//! Pairs of walks: the reference's, the device's as an edited copy of it, and damage to one or both.

use super::compare::ENTRY;
use super::read::write;
use crate::model::names::{ObjectType, Syntax, BRIDGE, TABLE};
use crate::random::Random;
use std::collections::BTreeMap;

/// A walk that can still be edited: tag and octets by name.
pub type Draft = BTreeMap<Vec<u32>, (u8, Vec<u8>)>;

const STRING: u8 = 0x22;

fn ports_columns() -> Vec<&'static ObjectType> {
    TABLE.iter().filter(|row| row.syntax == Syntax::Ports).collect()
}

fn under(prefix: &[u32], index: &[u32]) -> Vec<u32> {
    [&BRIDGE[..], prefix, index].concat()
}

fn some_sub_ids(random: &mut Random, count: usize) -> Vec<u32> {
    (0..count).map(|_| random.within(0, 5)).collect()
}

/// A name: most are instances or near ones, some stand elsewhere, are as short or as long as a name can be.
fn name(random: &mut Random) -> Vec<u32> {
    let length = random.below(4);
    let index = some_sub_ids(random, length);
    match random.below(10) {
        0..=3 => under(random.pick(&ports_columns()).prefix, &index),
        4..=7 => under(TABLE[random.below(TABLE.len())].prefix, &index),
        8 => {
            let count = random.pick(&[2, 3, 7, 127, 128]);
            some_sub_ids(random, count)
        }
        _ => [&BRIDGE[..], &[random.within(0, u32::MAX)], &index].concat(),
    }
}

/// The octets of a port set with few members, from none to nine octets long.
fn port_octets(random: &mut Random) -> Vec<u8> {
    let count = random.below(10);
    (0..count).map(|_| random.pick(&[0, 0, 0x80, 0x01, 0xA0, 0xFF])).collect()
}

fn content(random: &mut Random) -> (u8, Vec<u8>) {
    match random.below(8) {
        0..=3 => (STRING, port_octets(random)),
        4 => {
            let count = random.pick(&[0, 8, 9, 255]);
            (STRING, random.octets(count))
        }
        _ => (random.pick(&[0x21, 0x23, 0x24]), random.within(0, 3).to_be_bytes().to_vec()),
    }
}

fn draft(random: &mut Random) -> Draft {
    let count = random.pick(&[0, 1, 2, 5, 20, 60]);
    (0..count).map(|_| (name(random), content(random))).collect()
}

/// Contents that may or may not differ from these.
fn changed(random: &mut Random, (tag, octets): &(u8, Vec<u8>)) -> (u8, Vec<u8>) {
    let mut octets = octets.clone();
    match random.below(6) {
        0 | 1 if *tag == STRING && octets.len() < 8 => octets.resize(octets.len() + 1 + random.below(2), 0),
        2 if *tag == STRING => octets.truncate(octets.len().saturating_sub(1)),
        3 if *tag != STRING => return (random.pick(&[0x21, 0x23, 0x24]), octets),
        4 => return content(random),
        _ if !octets.is_empty() => {
            let at = random.below(octets.len());
            octets[at] ^= 1 << random.below(8);
        }
        _ => {}
    }
    (*tag, octets)
}

/// A copy with some instances taken out, some added, some changed.
fn edited(random: &mut Random, draft: &Draft) -> Draft {
    let [taken, altered] = random.pick(&[[0, 0], [0, 10], [10, 10], [40, 40]]);
    let mut copy = Draft::new();
    for (name, content) in draft {
        if random.chance(taken) {
            continue;
        }
        let content = if random.chance(altered) { changed(random, content) } else { content.clone() };
        copy.insert(name.clone(), content);
    }
    for _ in 0..random.pick(&[0, 0, 1, 5]) {
        copy.insert(name(random), content(random));
    }
    match random.below(4) {
        0 => drop(copy.pop_last()),
        1 => drop(copy.insert(vec![u32::MAX; 2], (STRING, Vec::new()))),
        _ => {}
    }
    copy
}

fn written<'a>(bindings: impl IntoIterator<Item = (&'a Vec<u32>, &'a (u8, Vec<u8>))>) -> Vec<u8> {
    let mut walk = Vec::new();
    for (name, (tag, octets)) in bindings {
        write(&mut walk, name, *tag, octets);
    }
    walk
}

/// A walk with something wrong, or nearly so.
fn damaged(random: &mut Random, draft: &Draft) -> Vec<u8> {
    let mut bindings: Vec<_> = draft.iter().collect();
    if bindings.len() > 1 && random.chance(40) {
        let at = random.below(bindings.len() - 1);
        match random.below(2) {
            0 => bindings.swap(at, at + 1),
            _ => bindings[at + 1] = bindings[at],
        }
    }
    let empty = (random.pick(&[0x20, 0x22, 0x30, 0x32]), Vec::new());
    if !bindings.is_empty() && random.chance(20) {
        let at = random.below(bindings.len());
        bindings[at].1 = &empty;
    }
    let mut walk = written(bindings);
    match random.below(5) {
        0 => walk.truncate(random.below(walk.len() + 1)),
        1 if !walk.is_empty() => {
            let at = random.below(walk.len());
            walk[at] = random.pick(&[0x00, 0x01, 0x10, 0x11, 0x20, 0x22, 0x30, 0xFF]);
        }
        2 => walk.extend(random.pick(&[vec![0x10], vec![0x10, 0, 0], vec![0x11, 0, 0], vec![0x10, 0, 1, 0]])),
        3 => one_octet_more(random, &mut walk),
        _ => {}
    }
    walk
}

/// The first binding gets an octet more than its two fields have.
fn one_octet_more(random: &mut Random, walk: &mut Vec<u8>) {
    if walk.len() > 3 {
        let length = usize::from(u16::from_be_bytes([walk[1], walk[2]]));
        walk.insert(3 + length, random.octet());
        walk[1..3].copy_from_slice(&(length as u16 + 1).to_be_bytes());
    }
}

/// The octets of the two walks: the reference's and the device's.
pub fn pair(random: &mut Random) -> (Vec<u8>, Vec<u8>) {
    let ours = draft(random);
    let theirs = match random.below(10) {
        0 => draft(random),
        1 => ours.clone(),
        _ => edited(random, &ours),
    };
    let reference = if random.chance(12) { damaged(random, &ours) } else { written(&ours) };
    let device = if random.chance(12) { damaged(random, &theirs) } else { written(&theirs) };
    (reference, device)
}

/// The length of a list for so many entries: enough, just enough, an octet or some entries short, or none.
pub fn list_length(random: &mut Random, entries: usize) -> usize {
    let exact = ENTRY * entries;
    match random.below(8) {
        0 => exact.saturating_sub(1),
        1 => random.below(exact + 1),
        2 => 0,
        3 => exact + 1 + random.below(ENTRY),
        4 => exact + ENTRY * random.below(9),
        _ => exact,
    }
}
