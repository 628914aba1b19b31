//! Writing a response as a datagram, in the shortest form.

use super::read::{NO_COUNTERPART, TOO_LONG};
use super::{tag, CONTENTS, LONGEST, MOST_BINDINGS, RESPONSE};

/// A refusal's number, and the offset that goes with 4 to 8.
pub type Refusal = (u32, u32);

const FIELD_CUT: u32 = 4;
const TAG: u32 = 5;
const LENGTH: u32 = 6;
const KIND: u32 = 7;
const TOO_MANY_BINDINGS: u32 = 8;

/// A field with a header and contents in the shortest form.
pub fn shortest(tag: u8, contents: &[u8]) -> Vec<u8> {
    let length = contents.len();
    let mut octets = vec![tag];
    match length {
        0..=0x7F => octets.push(length as u8),
        0x80..=0xFF => octets.extend([0x81, length as u8]),
        _ => octets.extend([0x82, (length >> 8) as u8, length as u8]),
    }
    octets.extend(contents);
    octets
}

/// A number in the fewest octets.
pub fn number(value: i64) -> Vec<u8> {
    let mut octets = value.to_be_bytes().to_vec();
    while octets.len() > 1 && ((octets[0] == 0 && octets[1] < 128) || (octets[0] == 255 && octets[1] >= 128)) {
        octets.remove(0);
    }
    octets
}

fn base_128(number: u64) -> Vec<u8> {
    let mut octets = vec![(number % 128) as u8];
    let mut left = number / 128;
    while left > 0 {
        octets.insert(0, 128 + (left % 128) as u8);
        left /= 128;
    }
    octets
}

/// A name of at least two sub-ids.
pub fn name(ids: &[u32]) -> Vec<u8> {
    let first = u64::from(ids[0]) * 40 + u64::from(ids[1]);
    let numbers = std::iter::once(first).chain(ids[2..].iter().map(|&id| u64::from(id)));
    numbers.flat_map(base_128).collect()
}

/// Octets of the message, and the place that is looked at.
struct Place<'a> {
    all: &'a [u8],
    at: usize,
}

impl<'a> Place<'a> {
    fn refuse<T>(&self, number: u32) -> Result<T, Refusal> {
        Err((number, self.at as u32))
    }

    /// The field here, of an enclosure that ends at `end`: cut, then its tag, then its length.
    fn field(
        &mut self,
        end: usize,
        tag: impl Fn(u8) -> bool,
        length: impl Fn(u8, usize) -> bool,
    ) -> Result<(u8, &'a [u8]), Refusal> {
        if self.at + 3 > end {
            return self.refuse(FIELD_CUT);
        }
        let size = usize::from(u16::from_be_bytes([self.all[self.at + 1], self.all[self.at + 2]]));
        let start = self.at + 3;
        if start + size > end {
            return self.refuse(FIELD_CUT);
        }
        let found = self.all[self.at];
        if !tag(found) {
            return self.refuse(TAG);
        }
        if !length(found, size) {
            return self.refuse(LENGTH);
        }
        self.at = start + size;
        Ok((found, &self.all[start..start + size]))
    }
}

fn length_right(tag: u8, length: usize) -> bool {
    match tag {
        0x22 => length <= 255,
        0x21 | 0x23 | 0x24 => length == 4,
        _ => length == 0,
    }
}

fn content(ours: u8, octets: &[u8]) -> Vec<u8> {
    let ber = CONTENTS.iter().find(|(_, tag)| *tag == ours).expect("a content's tag").0;
    let four = || u32::from_be_bytes(octets.try_into().expect("four octets"));
    match ours {
        0x21 => shortest(ber, &number(i64::from(four() as i32))),
        0x23 | 0x24 => shortest(ber, &number(i64::from(four()))),
        _ => shortest(ber, octets),
    }
}

fn binding(message: &[u8], at: usize) -> Result<(Vec<u8>, usize), Refusal> {
    let mut outer = Place { all: message, at };
    outer.field(message.len(), |tag| tag == 0x10, |_, _| true)?;
    let end = outer.at;
    let mut inner = Place { all: message, at: at + 3 };
    let name_right = |_, length| (8..=512).contains(&length) && length % 4 == 0;
    let (_, octets) = inner.field(end, |tag| tag == 0x11, name_right)?;
    let ids: Vec<u32> = octets.chunks(4).map(|id| u32::from_be_bytes(id.try_into().expect("four octets"))).collect();
    if ids[0] > 2 || (ids[0] < 2 && ids[1] >= 40) {
        return Err((NO_COUNTERPART, 0));
    }
    let tag_right = |tag| CONTENTS.iter().any(|(_, ours)| *ours == tag);
    let (tag, octets) = inner.field(end, tag_right, length_right)?;
    if inner.at < end {
        return inner.refuse(LENGTH);
    }
    Ok((shortest(tag::SEQUENCE, &[shortest(tag::NAME, &name(&ids)), content(tag, octets)].concat()), end))
}

/// What stands after 16 bindings: a header with a binding's tag is too many; else the field is cut or has a wrong tag.
fn after_the_last(message: &[u8], at: usize) -> Refusal {
    if at + 3 <= message.len() && message[at] == 0x10 {
        return (TOO_MANY_BINDINGS, at as u32);
    }
    match (Place { all: message, at }).field(message.len(), |_| false, |_, _| true) {
        Err(refusal) => refusal,
        Ok(_) => unreachable!("no tag is allowed"),
    }
}

fn bindings(message: &[u8], from: usize) -> Result<Vec<u8>, Refusal> {
    let (mut at, mut count, mut octets) = (from, 0, Vec::new());
    while at < message.len() {
        if count == MOST_BINDINGS {
            return Err(after_the_last(message, at));
        }
        let (ber, end) = binding(message, at)?;
        octets.extend(ber);
        at = end;
        count += 1;
    }
    Ok(octets)
}

/// What the call gives for a room that is long enough.
pub fn write(message: &[u8], community: &[u8]) -> Result<Vec<u8>, Refusal> {
    if message.len() > LONGEST {
        return Err((TOO_LONG, 0));
    }
    let mut place = Place { all: message, at: 0 };
    let (_, kind) = place.field(message.len(), |tag| tag == 1, |_, length| length == 1)?;
    if kind[0] != RESPONSE {
        return Err((KIND, 0));
    }
    let (_, id) = place.field(message.len(), |tag| tag == 2, |_, length| length == 4)?;
    let (_, status) = place.field(message.len(), |tag| tag == 3, |_, length| length == 2)?;
    let id = i32::from_be_bytes(id.try_into().expect("four octets"));
    let bindings = bindings(message, place.at)?;
    let numbers = [i64::from(id), i64::from(status[0]), i64::from(status[1])];
    let mut pdu: Vec<u8> = numbers.iter().flat_map(|&n| shortest(tag::INTEGER, &number(n))).collect();
    pdu.extend(shortest(tag::SEQUENCE, &bindings));
    let parts = [shortest(tag::INTEGER, &[1]), shortest(tag::STRING, community), shortest(tag::PDU + RESPONSE, &pdu)];
    let datagram = shortest(tag::SEQUENCE, &parts.concat());
    if datagram.len() > LONGEST {
        return Err((TOO_LONG, 0));
    }
    Ok(datagram)
}
