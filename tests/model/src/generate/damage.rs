//! Requests that are damaged in their octets, or wrong in their fields with all lengths in order.

use crate::model::message::{write_request, Content, Kind, Request};
use crate::random::Random;

const TAGS: [u8; 16] = [0x00, 0x01, 0x02, 0x03, 0x10, 0x11, 0x20, 0x21, 0x22, 0x23, 0x24, 0x25, 0x30, 0x31, 0x32, 0xFF];

fn field(tag: u8, contents: &[u8]) -> Vec<u8> {
    [&[tag][..], &(contents.len() as u16).to_be_bytes(), contents].concat()
}

/// Where the fields of a well-formed message start.
fn places(request: &[u8]) -> Vec<usize> {
    let mut places = Vec::new();
    let mut at = 0;
    while at + 3 <= request.len() {
        places.push(at);
        let length = usize::from(request[at + 1]) * 256 + usize::from(request[at + 2]);
        // The inner fields of a binding follow its header.
        at += if request[at] == 0x10 { 3 } else { 3 + length };
    }
    places
}

/// One to three damages of a well-formed request.
pub fn damaged(random: &mut Random, request: &Request) -> Vec<u8> {
    let mut octets = write_request(request);
    let places = places(&octets);
    for _ in 0..random.pick(&[1, 1, 1, 2, 3]) {
        damage(random, &mut octets, &places);
    }
    octets
}

fn damage(random: &mut Random, octets: &mut Vec<u8>, places: &[usize]) {
    let at = random.pick(places).min(octets.len().saturating_sub(3));
    if octets.len() < 3 {
        octets.push(random.octet());
        return;
    }
    let anywhere = random.below(octets.len());
    match random.below(11) {
        0 => octets.truncate(anywhere),
        1 => octets.truncate(at + random.below(4)),
        2 => octets[anywhere] ^= 1 << random.below(8),
        3 => octets[anywhere] = random.octet(),
        4 => octets[at] = random.pick(&TAGS),
        5 => put_length(random, octets, at),
        6 => drop(octets.splice(anywhere..anywhere, random.some_octets(5))),
        7 => drop(octets.drain(anywhere..(anywhere + 1 + random.below(4)).min(octets.len()))),
        8 => {
            let tail = trailing(random);
            octets.extend(tail);
        }
        9 => put(octets, 3, random.pick(&[0, 1, 2, 3, 4, 255])),
        _ => put(octets, random.pick(&[14, 15]), random.pick(&[1, 0x80, 0xFF])),
    }
}

/// Kind, status or index; a request that is cut before them stays as it is.
fn put(octets: &mut [u8], at: usize, octet: u8) {
    if let Some(old) = octets.get_mut(at) {
        *old = octet;
    }
}

/// A field's length changed by little, to nothing or to very much.
fn put_length(random: &mut Random, octets: &mut [u8], at: usize) {
    let length = u16::from_be_bytes([octets[at + 1], octets[at + 2]]);
    let changed = match random.below(6) {
        0 => length.wrapping_add(1),
        1 => length.wrapping_sub(1),
        2 => length.wrapping_add(random.pick(&[4, 256])),
        3 => length.wrapping_sub(random.pick(&[4, 256])),
        4 => random.pick(&[0, 0xFFFF, 0x8000]),
        _ => random.number() as u16,
    };
    octets[at + 1..at + 3].copy_from_slice(&changed.to_be_bytes());
}

fn trailing(random: &mut Random) -> Vec<u8> {
    match random.below(6) {
        0 => vec![random.pick(&TAGS)],
        1 => vec![random.pick(&TAGS), 0],
        2 => field(random.pick(&TAGS), &[]),
        3 => vec![random.pick(&TAGS), 0, 1],
        4 => vec![random.pick(&TAGS), 0xFF, 0xFF],
        _ => random.some_octets(20),
    }
}

/// 16 or 15 short bindings, and what stands after them: another one, or what only begins like one.
pub fn many_bindings(random: &mut Random) -> Vec<u8> {
    let kind = random.pick(&[0, 1, 3]);
    let mut octets = head(random, kind);
    for _ in 0..random.pick(&[15, 16, 16, 16, 17]) {
        octets.extend(binding(&[1, 3], right_content(random, kind)));
    }
    if random.chance(70) {
        let tail = trailing(random);
        octets.extend(tail);
    } else {
        octets.extend(binding(&[1, 3], right_content(random, kind)));
    }
    octets
}

/// A head and one binding with something wrong inside, while every enclosing length is right.
pub fn wrong_inside(random: &mut Random) -> Vec<u8> {
    let kind = random.pick(&[0, 1, 3]);
    let head = head(random, kind);
    let octets = random.pick(&[0, 1, 4, 5, 6, 7, 8, 9, 12, 511, 512, 513, 516]);
    let name = field(random.pick(&[0x11, 0x11, 0x11, 0x12]), &random.octets(octets));
    let mut content = right_content(random, kind);
    if random.chance(70) {
        let length = random.pick(&[0, 1, 3, 4, 5, 255, 256, 257]);
        content = field(random.pick(&TAGS), &vec![0x5A; length]);
    }
    let left = random.pick(&[vec![], vec![], vec![0], vec![0x20, 0, 0]]);
    let contents = match random.below(8) {
        0 => Vec::new(),
        1 => name,
        2 => [name, content.clone(), content].concat(),
        _ => [name, content, left].concat(),
    };
    let mut octets = [head, field(random.pick(&[0x10, 0x10, 0x10, 0x10, 0x11]), &contents)].concat();
    if random.chance(30) {
        octets.extend(binding(&[1, 3], right_content(random, kind)));
    }
    octets
}

fn head(random: &mut Random, kind: u8) -> Vec<u8> {
    [field(1, &[kind]), field(2, &random.octets(4)), field(3, &[0, 0])].concat()
}

fn binding(name: &[u32], content: Vec<u8>) -> Vec<u8> {
    let name: Vec<u8> = name.iter().flat_map(|sub_id| sub_id.to_be_bytes()).collect();
    field(0x10, &[field(0x11, &name), content].concat())
}

fn right_content(random: &mut Random, kind: u8) -> Vec<u8> {
    if kind != 3 {
        return field(0x20, &[]);
    }
    match random.below(3) {
        0 => field(0x22, &random.some_octets(4)),
        _ => field(random.pick(&[0x21, 0x23, 0x24]), &random.octets(4)),
    }
}

/// Octets that have only the look of fields.
pub fn noise(random: &mut Random) -> Vec<u8> {
    let mut octets = Vec::new();
    for _ in 0..random.below(12) {
        let length = random.pick(&[0, 1, 2, 4, 8]);
        octets.extend(field(random.pick(&TAGS), &random.octets(length)));
    }
    if random.chance(50) {
        octets.extend(random.some_octets(1472));
    }
    octets.truncate(1480);
    octets
}

/// A well-formed request padded by a long unknown name to about the longest that is read, or over it.
pub fn about_longest(random: &mut Random, request: &Request, longest: usize) -> Vec<u8> {
    let mut padded = request.clone();
    let padding = match request.kind {
        Kind::Set => Content::String(Vec::new()),
        _ => Content::Null,
    };
    padded.bindings.truncate(13);
    while write_request(&padded).len() + 17 <= longest && padded.bindings.len() < 16 {
        let free = longest - write_request(&padded).len() - 9;
        let sub_ids = (free / 4).min(128);
        let name = vec![random.number() as u32; sub_ids.max(2)];
        let left = if padding == Content::Null { 0 } else { (free - 4 * sub_ids).min(255) };
        let content = if left > 0 { Content::String(vec![0x5A; left]) } else { padding.clone() };
        padded.bindings.push(crate::model::message::Binding { name, content });
    }
    write_request(&padded)
}
