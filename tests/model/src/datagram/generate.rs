//! Random datagrams and messages: most are right or nearly right, since an octet at random is refused at once.

use super::write::{name, number, shortest};
use super::{field, tag, CONTENTS, GET, GET_NEXT, RESPONSE, SET};
use crate::random::Random;

/// A field whose length has any definite form.
fn any_length(random: &mut Random, tag: u8, contents: &[u8]) -> Vec<u8> {
    if random.chance(80) {
        return shortest(tag, contents);
    }
    let length = (contents.len() as u32).to_be_bytes();
    let needed = 4 - length.iter().take_while(|&&x| x == 0).count();
    let zeros = random.pick(&[0, 0, 1, 3, 60, 122]);
    let mut octets = vec![tag, 128 + (zeros + needed.max(1)) as u8];
    octets.extend(vec![0; zeros]);
    octets.extend(&length[4 - needed.max(1)..]);
    octets.extend(contents);
    octets
}

/// A number near an end of a range that a content, an id or a status has.
fn any_number(random: &mut Random) -> Vec<u8> {
    let ends = [0, 1, 127, 128, 255, 256, 32767, 32768, 0x7FFF_FFFF, 0x8000_0000, 0xFFFF_FFFF, 0x1_0000_0000, 1 << 40];
    let near = random.pick(&ends) + random.below(3) as i64 - 1;
    let mut octets = number(if random.chance(30) { -near } else { near });
    match random.below(40) {
        0 => octets.insert(0, 0),
        1 => octets.insert(0, 255),
        2 => octets.clear(),
        3 => octets.extend(random.some_octets(18)),
        _ => {}
    }
    octets
}

fn any_id(random: &mut Random) -> u32 {
    match random.below(6) {
        0 => random.pick(&[127, 128, 16383, 16384, 2_097_151, 2_097_152, 268_435_455, 268_435_456, u32::MAX]),
        1 => random.number() as u32,
        _ => random.below(128) as u32,
    }
}

/// The octets of a name, some of them with no counterpart or broken.
fn any_name(random: &mut Random) -> Vec<u8> {
    let count = if random.chance(3) { random.within(120, 134) } else { random.within(2, 14) } as usize;
    let mut ids = vec![random.below(3) as u32, random.below(40) as u32];
    if ids[0] == 2 {
        ids[1] = any_id(random);
    }
    ids.extend((2..count).map(|_| any_id(random)));
    let mut octets = name(&ids);
    match random.below(300) {
        0 => octets.insert(0, 0x80),
        1 => octets.push(0x81),
        2 => octets.extend([0x90, 0x80, 0x80, 0x80, 0x00]),
        3 => octets.extend([0x8F, 0xFF, 0xFF, 0xFF, 0x7F]),
        4 => octets = vec![0x90, 0x80, 0x80, 0x80, random.pick(&[0x4F, 0x50])],
        5 => octets.clear(),
        6 => octets.extend([0xFF; 12]),
        _ => {}
    }
    octets
}

fn any_content(random: &mut Random, kind: u8) -> Vec<u8> {
    let usual = match kind {
        GET | GET_NEXT => CONTENTS[0].0,
        SET => CONTENTS[1 + random.below(4)].0,
        _ => CONTENTS[random.below(8)].0,
    };
    let tag =
        if random.chance(1) { random.pick(&[0x05, 0x02, 0x04, 0x24, 0x40, 0x43, 0x46, 0x80, 0x1F]) } else { usual };
    let contents = match tag {
        tag::STRING if random.chance(10) => {
            let size = random.pick(&[127, 128, 254, 255, 256, 300]);
            random.octets(size)
        }
        tag::STRING => random.some_octets(20),
        tag::INTEGER if random.chance(95) => number(i64::from(random.number() as i32)),
        tag::UNSIGNED | tag::COUNTER if random.chance(95) => number(i64::from(random.number() as u32)),
        tag::INTEGER | tag::UNSIGNED | tag::COUNTER => any_number(random),
        _ if random.chance(2) => vec![0],
        _ => vec![],
    };
    any_length(random, tag, &contents)
}

fn any_binding(random: &mut Random, kind: u8) -> Vec<u8> {
    let octets = any_name(random);
    let mut inside = any_length(random, tag::NAME, &octets);
    inside.extend(any_content(random, kind));
    if random.below(300) == 0 {
        inside.extend(random.octets(2));
    }
    any_length(random, tag::SEQUENCE, &inside)
}

fn any_list(random: &mut Random, kind: u8) -> Vec<u8> {
    let count = random.pick(&[0, 1, 1, 1, 2, 3, 16, 16, 17]);
    let mut list: Vec<u8> = (0..count).flat_map(|_| any_binding(random, kind)).collect();
    if random.chance(3) {
        list.extend(random.pick(&[vec![0x30], vec![0x30, 0x80], vec![0x30, 5], vec![0x31, 0], vec![0x30, 0x82, 1]]));
    }
    any_length(random, tag::SEQUENCE, &list)
}

fn any_status(random: &mut Random, kind: u8) -> Vec<u8> {
    let octets = if random.chance(if kind == RESPONSE { 60 } else { 4 }) { any_number(random) } else { vec![0] };
    any_length(random, tag::INTEGER, &octets)
}

/// A datagram of a get, a get-next, a set or a response, now and then of another kind or version, or with octets left over.
pub fn any_datagram(random: &mut Random) -> Vec<u8> {
    let kind = if random.chance(3) { random.below(9) as u8 } else { random.pick(&[GET, GET_NEXT, RESPONSE, SET]) };
    let id = if random.chance(90) { number(i64::from(random.number() as i32)) } else { any_number(random) };
    let mut pdu = any_length(random, tag::INTEGER, &id);
    pdu.extend(any_status(random, kind));
    pdu.extend(any_status(random, kind));
    pdu.extend(any_list(random, kind));
    if random.chance(2) {
        pdu.push(random.octet());
    }
    let version = if random.chance(3) { any_number(random) } else { vec![1] };
    let mut whole = any_length(random, tag::INTEGER, &version);
    let size = random.pick(&[0, 6, 20, 127, 128, 200, 900]);
    let community = random.octets(size);
    whole.extend(any_length(random, tag::STRING, &community));
    whole.extend(any_length(random, tag::PDU + kind, &pdu));
    if random.chance(2) {
        whole.push(random.octet());
    }
    let mut datagram = any_length(random, tag::SEQUENCE, &whole);
    if random.chance(2) {
        datagram.push(random.octet());
    }
    datagram
}

/// A response in the message form, now and then of another kind, or with a name or a content that is not right.
pub fn any_response(random: &mut Random) -> Vec<u8> {
    let kind = if random.chance(3) { random.below(5) as u8 } else { RESPONSE };
    let mut octets = field(1, &[kind]);
    octets.extend(field(2, &random.octets(4)));
    octets.extend(field(3, &random.pick(&[vec![0, 0], vec![1, 0], vec![18, 16], vec![127, 128], vec![255, 255]])));
    for _ in 0..random.pick(&[0, 1, 1, 2, 5, 16, 17]) {
        octets.extend(any_answer(random));
    }
    octets
}

fn any_answer(random: &mut Random) -> Vec<u8> {
    let count = random.pick(&[2, 3, 9, 12, 14]);
    let mut ids = vec![random.below(3) as u32, random.below(40) as u32];
    ids.extend((2..count).map(|_| any_id(random)));
    match random.below(40) {
        0 => ids[0] = 3,
        1 => ids[1] = 40,
        2 => ids[0] = any_id(random),
        _ => {}
    }
    let ours = if random.chance(2) { random.octet() } else { CONTENTS[random.below(8)].1 };
    let content = match ours {
        0x22 => random.some_octets(40),
        0x21 | 0x23 | 0x24 => (random.number() as u32 >> random.below(32)).to_be_bytes().to_vec(),
        _ => vec![],
    };
    let name: Vec<u8> = ids.iter().flat_map(|id| id.to_be_bytes()).collect();
    let mut inside = [field(0x11, &name), field(ours, &content)].concat();
    if random.chance(1) {
        inside.push(0);
    }
    field(0x10, &inside)
}

/// One to three changes: an octet, a bit, an octet more or fewer, an end that is cut.
pub fn damage(random: &mut Random, octets: &mut Vec<u8>) {
    for _ in 0..1 + random.below(3) {
        if octets.is_empty() {
            return;
        }
        let at = random.below(octets.len());
        match random.below(6) {
            0 => octets[at] = random.octet(),
            1 => octets[at] ^= 1 << random.below(8),
            2 => octets[at] = random.pick(&[0x00, 0x01, 0x30, 0x7F, 0x80, 0x81, 0x82, 0xFF]),
            3 => octets.insert(at, random.octet()),
            4 => drop(octets.remove(at)),
            _ => octets.truncate(at),
        }
    }
}
