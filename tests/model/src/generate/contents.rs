//! Contents to write: right ones, and wrong in type, length or value.

use crate::model::bridge::{all_ports, timers_agree, Bridge, PortSet, TIMERS};
use crate::model::message::Content;
use crate::model::names::{takes, type_of, Object, ObjectType, Syntax, LARGEST_FRAMES};
use crate::random::Random;

/// A set of ports 1..N: few, many, all or none.
pub fn port_set(random: &mut Random, ports: u32) -> PortSet {
    let set = match random.below(6) {
        0 => 0,
        1 => u64::MAX,
        2 => 1 << random.below(64),
        3 => random.number() & random.number(),
        4 => random.number() | random.number(),
        _ => random.number(),
    };
    set & all_ports(ports)
}

/// The octets that write a set, with or without the last ones that are 0.
pub fn port_octets(random: &mut Random, set: PortSet) -> Content {
    let octets = set.to_be_bytes();
    let needed = 8 - set.trailing_zeros() as usize / 8;
    Content::String(octets[..needed + random.below(9 - needed)].to_vec())
}

/// The three timers with some of them changed (those that say so): anywhere in their ranges, or at about the limits that
/// the rules set, on both sides.
pub fn timers(random: &mut Random, mut timers: [u32; 3]) -> ([u32; 3], [bool; 3]) {
    let mut order = [0, 1, 2];
    random.shuffle(&mut order);
    let mut changed = [false; 3];
    for place in &order[..1 + random.below(3)] {
        let [max_age, hello_time, forward_delay] = timers;
        let limits = match place {
            0 => [2 * (hello_time + 100), 2 * (forward_delay - 100)],
            1 => [max_age / 2 - 100; 2],
            _ => [max_age.div_ceil(2) + 100; 2],
        };
        let (low, high) = range(TIMERS[*place]);
        let near = random.pick(&limits) + random.pick(&[0, 1, 1, 2, 3]) - 1;
        let anywhere = random.within(low, high);
        timers[*place] = random.pick(&[near, near, anywhere]).clamp(low, high);
        changed[*place] = true;
    }
    (timers, changed)
}

/// The same, and the three belong together.
pub fn agreeing_timers(random: &mut Random, old: [u32; 3]) -> ([u32; 3], [bool; 3]) {
    loop {
        let (timers, changed) = timers(random, old);
        if timers_agree(timers) {
            return (timers, changed);
        }
    }
}

/// A number that an object of this edition takes, the least and the most more often.
pub fn taken_number(random: &mut Random, object: Object, edition: u32) -> u32 {
    if type_of(object).syntax == Syntax::Frame {
        return random.pick(&LARGEST_FRAMES);
    }
    let (low, high) = range(object);
    loop {
        // Steps are met by a number that is cut to one.
        let number = random.within(low, high) & random.pick(&[!0, !0xF, !0xFFF]);
        if number >= low && takes(object, edition, number) {
            return number;
        }
    }
}

/// The range of an object's numbers, whatever the edition.
fn range(object: Object) -> (u32, u32) {
    match type_of(object).syntax {
        Syntax::Integer(low, high) | Syntax::Unsigned(low, high) => (low, high),
        _ => unreachable!("{object:?} has no numbers"),
    }
}

/// Right in type, length and value.
pub fn right(random: &mut Random, bridge: &Bridge, entry: &ObjectType) -> Content {
    match entry.syntax {
        Syntax::Integer(..) | Syntax::Frame => {
            Content::Integer(taken_number(random, entry.object, bridge.edition) as i32)
        }
        Syntax::Unsigned(..) => Content::Unsigned(taken_number(random, entry.object, bridge.edition)),
        Syntax::Counter => Content::Counter(random.number() as u32),
        Syntax::Address => Content::String(random.octets(6)),
        Syntax::Text => {
            let octets = random.within(0, 32) as usize;
            Content::String(random.octets(octets))
        }
        Syntax::Ports => {
            let set = port_set(random, bridge.ports);
            port_octets(random, set)
        }
        Syntax::RowStatus => Content::Integer(random.pick(&[1, 2, 4, 5, 6])),
        Syntax::StaticStatus => Content::Integer(random.pick(&[2, 3, 4, 5])),
        Syntax::PairState => Content::Integer(random.pick(&[1, 1, 2, 2, 3])),
    }
}

/// Any content that a set may carry.
pub fn any(random: &mut Random) -> Content {
    let number = random.number() as u32;
    let number = random.pick(&[0, 1, 2, 3, 4, 5, 6, 7, 256, 0xFFFF_FFFF, number]);
    match random.below(4) {
        0 => Content::Integer(number as i32),
        1 => Content::Unsigned(number),
        2 => Content::Counter(number),
        _ => {
            let octets = random.pick(&[0, 1, 4, 8, 9, 32, 33]);
            Content::String(random.octets(octets))
        }
    }
}

pub fn wrong_type(random: &mut Random, bridge: &Bridge, entry: &ObjectType) -> Content {
    let right = right(random, bridge, entry);
    loop {
        let content = any(random);
        if std::mem::discriminant(&content) != std::mem::discriminant(&right) {
            return content;
        }
    }
}

/// None where the object's type has no wrong length.
pub fn wrong_length(random: &mut Random, entry: &ObjectType) -> Option<Content> {
    let octets = match entry.syntax {
        Syntax::Text => random.pick(&[33, 34, 64, 255]),
        Syntax::Ports => random.pick(&[9, 10, 16, 255]),
        _ => return None,
    };
    let zero = random.chance(30);
    Some(Content::String(if zero { vec![0; octets] } else { random.octets(octets) }))
}

/// A priority in the old range that is between two of the newer edition's; none where the object is no priority.
pub fn priority_beside_a_step(random: &mut Random, object: Object) -> Option<u32> {
    let step = match object {
        Object::StpPriority => 4096,
        Object::StpPortPriority => 16,
        _ => return None,
    };
    let below = step * random.within(0, 15);
    Some(below + random.pick(&[1, step / 2, step - 1]))
}

/// A number beside one of the largest frames or between two of them, or below or above all.
pub fn no_frame(random: &mut Random) -> i32 {
    let frame = random.pick(&LARGEST_FRAMES) as i32;
    let between = random.within(517, 65534) as i32;
    let number = random.pick(&[frame - 1, frame + 1, frame + 65536, -frame, between, 1500, 0]);
    if LARGEST_FRAMES.iter().any(|frame| *frame as i32 == number) {
        return 1500;
    }
    number
}

/// None where the object's type has no wrong value.
pub fn wrong_value(random: &mut Random, bridge: &Bridge, entry: &ObjectType) -> Option<Content> {
    let negative = -1 - random.below(70_000) as i32;
    let far = random.pick(&[i32::MIN, i32::MAX, -1, negative]);
    let beside = priority_beside_a_step(random, entry.object);
    Some(match entry.syntax {
        Syntax::Integer(..) if bridge.edition == 2 && beside.is_some() && random.chance(70) => {
            Content::Integer(beside? as i32)
        }
        Syntax::Integer(low, high) => Content::Integer(random.pick(&[low as i32 - 1, high as i32 + 1, far])),
        Syntax::Unsigned(_, high) => Content::Unsigned(random.pick(&[0, high + 1, 65536 + 1, 0x8000_0001, u32::MAX])),
        Syntax::RowStatus => Content::Integer(random.pick(&[0, 3, 7, 260, far])),
        Syntax::StaticStatus => Content::Integer(random.pick(&[0, 1, 6, 259, far])),
        Syntax::PairState => Content::Integer(random.pick(&[0, 4, 257, 258, far])),
        Syntax::Frame => Content::Integer(no_frame(random)),
        Syntax::Ports if bridge.ports < 64 => {
            let above = random.within(bridge.ports + 1, 64);
            let set = port_set(random, bridge.ports) | 1 << (64 - above);
            port_octets(random, set)
        }
        _ => return None,
    })
}
