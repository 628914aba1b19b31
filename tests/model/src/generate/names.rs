//! Names to ask for: existing instances, near misses, prefixes, and names before, between and after all objects.

use crate::model::bridge::Bridge;
use crate::model::names::{type_of, Object, ObjectType, Shape, BRIDGE, TABLE};
use crate::random::Random;

/// Sub-ids at the ends of ranges, and those that a text or octet comparison would put in another order.
const EDGES: [u32; 24] = [
    0,
    1,
    2,
    3,
    7,
    8,
    9,
    10,
    63,
    64,
    65,
    100,
    127,
    128,
    255,
    256,
    257,
    4093,
    4094,
    4095,
    65536,
    0x7FFF_FFFF,
    0x8000_0000,
    0xFFFF_FFFF,
];

pub fn edge(random: &mut Random) -> u32 {
    random.pick(&EDGES)
}

/// An index of an instance that exists; none where the table is empty.
pub fn present_index(random: &mut Random, bridge: &Bridge, shape: Shape) -> Option<Vec<u32>> {
    match shape {
        Shape::Vlan => {
            let rows = bridge.vlans.len();
            (rows > 0).then(|| vec![*bridge.vlans.keys().nth(random.below(rows)).unwrap()])
        }
        Shape::Static => {
            let rows = bridge.statics.len();
            (rows > 0).then(|| bridge.statics.keys().nth(random.below(rows)).unwrap().to_vec())
        }
        Shape::Pair => {
            let rows = bridge.pairs.len();
            (rows > 0).then(|| bridge.pairs.keys().nth(random.below(rows)).unwrap().to_vec())
        }
        _ => Some(possible_index(random, bridge, shape)),
    }
}

/// An index that this bridge can have, often beside a row that stands. A bridge of one port can have no pair, and 1.2 is given.
pub fn possible_index(random: &mut Random, bridge: &Bridge, shape: Shape) -> Vec<u32> {
    match shape {
        Shape::Scalar => vec![0],
        Shape::Port => vec![random.within(1, bridge.ports)],
        Shape::PortPriority => vec![random.within(1, bridge.ports), random.within(0, 7)],
        Shape::Vlan => {
            let beside = present_index(random, bridge, shape).map_or(1, |index| index[0]);
            let ids = [1, 2, 10, 255, 256, 4093, 4094, beside, beside.max(2) - 1, beside + 1, random.within(1, 4094)];
            vec![random.pick(&ids).min(4094)]
        }
        Shape::Static => possible_static(random, bridge),
        Shape::Pair => possible_pair(random, bridge),
    }
}

/// Any pair of ports, or one that differs by a port from one that stands.
fn possible_pair(random: &mut Random, bridge: &Bridge) -> Vec<u32> {
    let low = random.within(1, bridge.ports.max(2) - 1);
    let high = random.within(low + 1, bridge.ports.max(2));
    match present_index(random, bridge, Shape::Pair) {
        Some(index) if random.chance(30) && low < index[1] => vec![low, index[1]],
        Some(index) if random.chance(30) && index[0] < high => vec![index[0], high],
        _ => vec![low, high],
    }
}

fn possible_static(random: &mut Random, bridge: &Bridge) -> Vec<u32> {
    let mut index = match present_index(random, bridge, Shape::Static) {
        Some(index) if random.chance(50) => index,
        _ => (0..6).map(|_| random.pick(&[0, 0, 1, 10, 255])).chain([0]).collect(),
    };
    let at = random.below(7);
    index[at] = if at == 6 { random.within(0, bridge.ports) } else { random.within(0, 255) };
    index
}

/// A rest of a name that is mostly no index this bridge can have, by little.
pub fn impossible_index(random: &mut Random, bridge: &Bridge, shape: Shape) -> Vec<u32> {
    let mut index = possible_index(random, bridge, shape);
    let (first, last) = (0, index.len() - 1);
    match (random.below(4), shape) {
        (0, _) => index.truncate(random.below(index.len())),
        (1, _) => index.push(edge(random)),
        (2, Shape::Vlan) => index[first] = random.pick(&[0, 4095, 65536 + 1, 0xFFFF_FFFF]),
        (2, Shape::Static) => index[random.below(6)] = random.pick(&[256, 257, 0xFFFF_FFFF]),
        (2, Shape::Pair) => index.swap(first, last),
        (3, Shape::Pair) if random.chance(50) => index[random.below(2)] = index[random.below(2)],
        (2, _) => index[first] = random.pick(&[0, bridge.ports + 1, 65536 + 1, 0xFFFF_FFFF]),
        (_, Shape::PortPriority) => index[last] = random.pick(&[8, 9, 256]),
        _ => index[last] = random.pick(&[bridge.ports + 1, 256, 0xFFFF_FFFF]),
    }
    index
}

/// An object that the bridge's device has, or one that it has not.
fn object_where(random: &mut Random, bridge: &Bridge, has: bool) -> &'static ObjectType {
    loop {
        let entry = &TABLE[random.below(TABLE.len())];
        if entry.is_of(bridge.device) == has {
            return entry;
        }
    }
}

/// An object of this bridge.
pub fn object(random: &mut Random, bridge: &Bridge) -> &'static ObjectType {
    object_where(random, bridge, true)
}

/// An object of the other device, which this bridge has not.
pub fn foreign_object(random: &mut Random, bridge: &Bridge) -> &'static ObjectType {
    object_where(random, bridge, false)
}

/// A name that would be of an instance, or begin one, were the bridge the other device.
pub fn foreign_name(random: &mut Random, bridge: &Bridge) -> Vec<u32> {
    let entry = foreign_object(random, bridge);
    let index = possible_index(random, bridge, entry.shape);
    let kept = if random.chance(20) { random.below(index.len() + 1) } else { index.len() };
    entry.name(&index[..kept])
}

/// The whole name of an instance that exists.
pub fn instance(random: &mut Random, bridge: &Bridge) -> Vec<u32> {
    let entry = object(random, bridge);
    match present_index(random, bridge, entry.shape) {
        Some(index) => entry.name(&index),
        None => type_of(Object::NumPorts).name(&[0]),
    }
}

/// Any name at all, of 2 to 128 sub-ids.
pub fn any_name(random: &mut Random, bridge: &Bridge) -> Vec<u32> {
    let mut name = instance(random, bridge);
    let entry = object(random, bridge);
    match random.below(15) {
        0..=4 => {}
        5 => name = entry.name(&[]),
        6 => name.truncate(2 + random.below(name.len() - 1)),
        7 => {
            let (at, edge) = (random.below(name.len()), edge(random));
            name[at] = random.pick(&[name[at].wrapping_add(1), name[at].wrapping_sub(1), edge]);
        }
        8 => name.extend((0..1 + random.below(3)).map(|_| random.pick(&[0, 1, 0xFFFF_FFFF]))),
        9 => name = entry.name(&possible_index(random, bridge, entry.shape)),
        10 => name = entry.name(&impossible_index(random, bridge, entry.shape)),
        11 => name = unlisted_column(random, entry),
        12 => name = foreign_name(random, bridge),
        _ => name = outside(random, bridge),
    }
    if random.chance(2) {
        let any = 20 + random.below(100);
        let length = random.pick(&[127, 128, any]);
        name.resize(length.max(name.len()), edge(random));
    }
    name
}

/// A column beside those of the table.
fn unlisted_column(random: &mut Random, entry: &ObjectType) -> Vec<u32> {
    let mut name = entry.name(&[]);
    let last = name.len() - 1;
    let edge_or_next = [0, 3, 6, 7, name[last] + 1, edge(random)];
    name[last] = random.pick(&edge_or_next);
    name.extend((0..random.below(3)).map(|_| edge(random)));
    name
}

/// Before, after or between the objects.
fn outside(random: &mut Random, bridge: &Bridge) -> Vec<u32> {
    let under = |rest: &[u32]| [&BRIDGE[..], rest].concat();
    match random.below(14) {
        0 => vec![1, 3],
        1 => vec![0, 0],
        2 => vec![1, 3, 6, 1, 2, 1, 16, 0xFFFF_FFFF],
        3 => vec![1, 3, 6, 1, 2, 1, 18],
        4 => vec![2, random.number() as u32],
        5 => under(&[]),
        6 => under(&[random.pick(&[0, 3, 8, 9, 10]), edge(random)]),
        7 => under(&[7, 1, 4, 5, 1, random.pick(&[3, 4]), bridge.ports]),
        8 => under(&[7, 1, 4, 5, 1, 3, bridge.ports, edge(random)]),
        9 => vec![0xFFFF_FFFF; 2 + random.below(8)],
        // What document 004 has beside the largest frame and the pairs, which no device has here.
        12 => under(&[3, 1, 1, random.pick(&[1, 2, 4, 5, 7, 18]), random.within(1, bridge.ports)]),
        13 => under(&[3, random.pick(&[1, 2, 3, 4, 5, 6]), random.pick(&[0, 1, 2])]),
        10 => (0..2 + random.below(12)).map(|_| random.number() as u32).collect(),
        _ => (0..2 + random.below(10)).map(|_| edge(random)).collect(),
    }
}
