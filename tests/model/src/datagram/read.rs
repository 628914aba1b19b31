//! Reading a datagram: from the left, the first refusal ends it.

use super::{field, tag, CONTENTS, GET, GET_NEXT, LONGEST, MOST_BINDINGS, RESPONSE, SET};

pub const STATUS: u32 = 7;
pub const TOO_MANY_BINDINGS: u32 = 8;
pub const BROKEN: u32 = 16;
pub const VERSION: u32 = 17;
pub const KIND: u32 = 18;
pub const NO_COUNTERPART: u32 = 19;
pub const TOO_LONG: u32 = 20;

/// A message in our form, and where its community stands in the datagram.
pub struct Message {
    pub octets: Vec<u8>,
    pub community_at: usize,
    pub community_len: usize,
}

/// Octets of the datagram from `at` to `end`: what is left of an enclosure.
struct Enclosure<'a> {
    all: &'a [u8],
    at: usize,
    end: usize,
}

struct Field {
    tag: u8,
    start: usize,
    end: usize,
}

/// The number of big-endian octets, or a number that is too big for any datagram.
fn length_of(octets: &[u8]) -> usize {
    octets.iter().fold(0usize, |n, &x| n.saturating_mul(256).saturating_add(usize::from(x)))
}

impl<'a> Enclosure<'a> {
    fn octet(&self, at: usize) -> Result<u8, u32> {
        if at < self.end {
            Ok(self.all[at])
        } else {
            Err(BROKEN)
        }
    }

    /// Where the contents of the next field start, and how long they are said to be.
    fn length(&self) -> Result<(usize, usize), u32> {
        match self.octet(self.at + 1)? {
            short @ 0..=127 => Ok((self.at + 2, usize::from(short))),
            128 | 255 => Err(BROKEN),
            long => {
                let start = self.at + 2 + usize::from(long - 128);
                if start > self.end {
                    return Err(BROKEN);
                }
                Ok((start, length_of(&self.all[self.at + 2..start])))
            }
        }
    }

    fn field(&mut self) -> Result<Field, u32> {
        let tag = self.octet(self.at)?;
        let (start, length) = self.length()?;
        if length > self.end - start {
            return Err(BROKEN);
        }
        self.at = start + length;
        Ok(Field { tag, start, end: self.at })
    }

    fn tagged(&mut self, tag: u8) -> Result<&'a [u8], u32> {
        let field = self.field()?;
        if field.tag == tag {
            Ok(&self.all[field.start..field.end])
        } else {
            Err(BROKEN)
        }
    }

    fn inner(&mut self, tag: u8) -> Result<Enclosure<'a>, u32> {
        let field = self.field()?;
        if field.tag == tag {
            Ok(Enclosure { all: self.all, at: field.start, end: field.end })
        } else {
            Err(BROKEN)
        }
    }

    fn number(&mut self) -> Result<i128, u32> {
        number(self.tagged(tag::INTEGER)?)
    }

    fn done(&self) -> Result<(), u32> {
        if self.at == self.end {
            Ok(())
        } else {
            Err(BROKEN)
        }
    }
}

/// Two's complement in the fewest octets; a number of more than 15 octets is beyond every range, whatever it is.
fn number(octets: &[u8]) -> Result<i128, u32> {
    match octets {
        [] | [0, 0..=127, ..] | [255, 128..=255, ..] => Err(BROKEN),
        [first, ..] if octets.len() > 15 => Ok(if *first < 128 { i128::MAX } else { i128::MIN }),
        [first, ..] => {
            let unsigned = octets.iter().fold(0i128, |n, &x| n * 256 + i128::from(x));
            Ok(if *first < 128 { unsigned } else { unsigned - (1i128 << (8 * octets.len())) })
        }
    }
}

fn four(number: i128, low: i128, high: i128) -> Result<Vec<u8>, u32> {
    if (low..=high).contains(&number) {
        Ok((number as u32).to_be_bytes().to_vec())
    } else {
        Err(NO_COUNTERPART)
    }
}

/// The numbers of a name to the base 128; a number that is too big for a sub-id stays too big.
fn base_128(octets: &[u8]) -> Result<Vec<u128>, u32> {
    let mut numbers = Vec::new();
    let mut number = None;
    for &x in octets {
        if number.is_none() && x == 0x80 {
            return Err(BROKEN);
        }
        let sum = (number.unwrap_or(0u128) * 128 + u128::from(x & 0x7F)).min(1 << 64);
        number = Some(sum);
        if x < 0x80 {
            numbers.push(sum);
            number = None;
        }
    }
    if numbers.is_empty() || number.is_some() {
        return Err(BROKEN);
    }
    Ok(numbers)
}

fn name(octets: &[u8]) -> Result<Vec<u8>, u32> {
    let numbers = base_128(octets)?;
    let first = (numbers[0] / 40).min(2);
    let mut ids = vec![first, numbers[0] - 40 * first];
    ids.extend(&numbers[1..]);
    if ids.len() > 128 || ids.iter().any(|&id| id > u128::from(u32::MAX)) {
        return Err(NO_COUNTERPART);
    }
    Ok(ids.iter().flat_map(|&id| (id as u32).to_be_bytes()).collect())
}

fn tags_of(kind: u8) -> &'static [u8] {
    match kind {
        GET | GET_NEXT => &[0x20],
        SET => &[0x21, 0x22, 0x23, 0x24],
        _ => &[0x20, 0x21, 0x22, 0x23, 0x24, 0x30, 0x31, 0x32],
    }
}

/// A content in our form, with its field.
fn content(kind: u8, ber: u8, octets: &[u8]) -> Result<Vec<u8>, u32> {
    let ours = CONTENTS.iter().find(|(tag, _)| *tag == ber).map_or(0, |(_, ours)| *ours);
    if !tags_of(kind).contains(&ours) {
        return Err(NO_COUNTERPART);
    }
    match ours {
        0x21 => Ok(field(ours, &four(number(octets)?, i128::from(i32::MIN), i128::from(i32::MAX))?)),
        0x23 | 0x24 => Ok(field(ours, &four(number(octets)?, 0, i128::from(u32::MAX))?)),
        0x22 if octets.len() > 255 => Err(NO_COUNTERPART),
        0x22 => Ok(field(ours, octets)),
        _ if !octets.is_empty() => Err(BROKEN),
        _ => Ok(field(ours, &[])),
    }
}

fn binding(kind: u8, list: &mut Enclosure) -> Result<Vec<u8>, u32> {
    let mut inside = list.inner(tag::SEQUENCE)?;
    let name = name(inside.tagged(tag::NAME)?)?;
    let value = inside.field()?;
    let content = content(kind, value.tag, &list.all[value.start..value.end])?;
    inside.done()?;
    Ok(field(0x10, &[field(0x11, &name), content].concat()))
}

/// A 17th binding is told by its tag and by length octets that are there and definite.
fn after_the_last(list: &Enclosure) -> u32 {
    if list.all[list.at] == tag::SEQUENCE && list.length().is_ok() {
        TOO_MANY_BINDINGS
    } else {
        BROKEN
    }
}

fn bindings(kind: u8, list: &mut Enclosure) -> Result<Vec<u8>, u32> {
    let mut octets = Vec::new();
    let mut count = 0;
    while list.at < list.end {
        if count == MOST_BINDINGS {
            return Err(after_the_last(list));
        }
        octets.extend(binding(kind, list)?);
        count += 1;
    }
    Ok(octets)
}

fn status(kind: u8, pdu: &mut Enclosure) -> Result<u8, u32> {
    let number = pdu.number()?;
    if kind != RESPONSE && number != 0 {
        return Err(STATUS);
    }
    u8::try_from(number).map_err(|_| NO_COUNTERPART)
}

fn kind_of(tag: u8, responses: bool) -> Result<u8, u32> {
    match tag.wrapping_sub(tag::PDU) {
        kind @ (GET | GET_NEXT | SET) => Ok(kind),
        RESPONSE if responses => Ok(RESPONSE),
        _ => Err(KIND),
    }
}

fn message(datagram: &[u8], responses: bool) -> Result<Message, u32> {
    let mut outside = Enclosure { all: datagram, at: 0, end: datagram.len() };
    let mut whole = outside.inner(tag::SEQUENCE)?;
    if whole.number()? != 1 {
        return Err(VERSION);
    }
    let community_len = whole.tagged(tag::STRING)?.len();
    let community_at = whole.at - community_len;
    let pdu = whole.field()?;
    let kind = kind_of(pdu.tag, responses)?;
    let mut inside = Enclosure { all: datagram, at: pdu.start, end: pdu.end };
    let id = four(inside.number()?, i128::from(i32::MIN), i128::from(i32::MAX))?;
    let status = [status(kind, &mut inside)?, status(kind, &mut inside)?];
    let mut list = inside.inner(tag::SEQUENCE)?;
    let bindings = bindings(kind, &mut list)?;
    inside.done()?;
    whole.done()?;
    outside.done()?;
    let octets = [field(1, &[kind]), field(2, &id), field(3, &status), bindings].concat();
    Ok(Message { octets, community_at, community_len })
}

/// What the calls give for a room that is long enough.
pub fn read(datagram: &[u8], responses: bool) -> Result<Message, u32> {
    if datagram.len() > LONGEST {
        return Err(TOO_LONG);
    }
    let message = message(datagram, responses)?;
    if message.octets.len() > LONGEST {
        return Err(TOO_LONG);
    }
    Ok(message)
}
