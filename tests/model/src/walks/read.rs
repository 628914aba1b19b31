//! A walk: bindings one after the other, strictly ascending, each as a set carries it.

use std::ops::Range;

pub const FIELD_CUT: u32 = 4;
pub const TAG_NOT_ALLOWED: u32 = 5;
pub const LENGTH_WRONG: u32 = 6;
pub const NOT_ASCENDING: u32 = 24;

/// A refusal and its offset from the walk's start; 24 has none, which is 0.
#[derive(Clone, Copy, PartialEq, Eq, Debug)]
pub struct Fault {
    pub number: u32,
    pub offset: usize,
}

fn fault<T>(number: u32, offset: usize) -> Result<T, Fault> {
    Err(Fault { number, offset })
}

#[derive(Clone, PartialEq, Eq, Debug)]
pub struct Instance {
    /// Where its binding starts in the walk.
    pub at: usize,
    pub name: Vec<u32>,
    pub tag: u8,
    pub octets: Vec<u8>,
}

/// A field's tag and the place of its contents; `end` is where its enclosure ends.
fn field(walk: &[u8], at: usize, end: usize) -> Result<(u8, Range<usize>), Fault> {
    let [tag, high, low] = *walk[at..end].first_chunk::<3>().ok_or(Fault { number: FIELD_CUT, offset: at })?;
    let start = at + 3;
    let stop = start + usize::from(u16::from_be_bytes([high, low]));
    if stop > end {
        return fault(FIELD_CUT, at);
    }
    Ok((tag, start..stop))
}

/// The name and content that stand in a binding.
fn inside(walk: &[u8], at: usize, place: Range<usize>) -> Result<Instance, Fault> {
    let (tag, name) = field(walk, place.start, place.end)?;
    if tag != 0x11 {
        return fault(TAG_NOT_ALLOWED, place.start);
    }
    if !name.len().is_multiple_of(4) || !(2..=128).contains(&(name.len() / 4)) {
        return fault(LENGTH_WRONG, place.start);
    }
    let (tag, content) = field(walk, name.end, place.end)?;
    let right = match tag {
        0x21 | 0x23 | 0x24 => content.len() == 4,
        0x22 => content.len() <= 255,
        _ => return fault(TAG_NOT_ALLOWED, name.end),
    };
    if !right {
        return fault(LENGTH_WRONG, name.end);
    }
    if content.end < place.end {
        return fault(LENGTH_WRONG, content.end);
    }
    let sub_ids = walk[name].chunks_exact(4).map(|sub_id| u32::from_be_bytes(sub_id.try_into().unwrap()));
    Ok(Instance { at, name: sub_ids.collect(), tag, octets: walk[content].to_vec() })
}

/// The whole walk, or its first fault from the left.
pub fn read(walk: &[u8]) -> Result<Vec<Instance>, Fault> {
    let mut instances: Vec<Instance> = Vec::new();
    let mut at = 0;
    while at < walk.len() {
        let (tag, place) = field(walk, at, walk.len())?;
        if tag != 0x10 {
            return fault(TAG_NOT_ALLOWED, at);
        }
        let next = place.end;
        let instance = inside(walk, at, place)?;
        if instances.last().is_some_and(|before| before.name >= instance.name) {
            return fault(NOT_ASCENDING, 0);
        }
        instances.push(instance);
        at = next;
    }
    Ok(instances)
}

/// The octets of one binding.
pub fn write(walk: &mut Vec<u8>, name: &[u32], tag: u8, octets: &[u8]) {
    let inner = 3 + 4 * name.len() + 3 + octets.len();
    walk.push(0x10);
    walk.extend((inner as u16).to_be_bytes());
    walk.push(0x11);
    walk.extend((4 * name.len() as u16).to_be_bytes());
    walk.extend(name.iter().flat_map(|sub_id| sub_id.to_be_bytes()));
    walk.push(tag);
    walk.extend((octets.len() as u16).to_be_bytes());
    walk.extend(octets);
}
