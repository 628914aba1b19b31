//! Set messages about port pairs and largest frames, which a source-routing bridge has (E12).

use super::contents::{any, no_frame, right, wrong_type, wrong_value};
use super::names::{impossible_index, possible_index, present_index};
use super::sets::{add, bind};
use super::start::all_pairs;
use crate::model::bridge::Bridge;
use crate::model::message::{Binding, Content};
use crate::model::names::{type_of, Object, Shape, LARGEST_FRAMES, MOST_PAIRS};
use crate::random::Random;

fn state(random: &mut Random, index: &[u32], numbers: &[i32]) -> Binding {
    bind(Object::PairBridgeState, index, Content::Integer(random.pick(numbers)))
}

fn number(random: &mut Random, index: &[u32]) -> Binding {
    bind(Object::PairBridgeNum, index, Content::Integer(random.within(0, 15) as i32))
}

/// What one message may do to a pair without a fault, as long as the table has room.
pub fn pair_group(random: &mut Random, bridge: &Bridge) -> Vec<Binding> {
    let index = possible_index(random, bridge, Shape::Pair);
    let present = bridge.get(Object::PairBridgeState, &index).is_some();
    match random.below(6) {
        0 => vec![state(random, &index, &[3])],
        1 if present => vec![state(random, &index, &[1, 2])],
        2 if present => vec![number(random, &index)],
        _ => vec![state(random, &index, &[1, 2]), number(random, &index)],
    }
}

/// A bridge number that no rule before 18 takes: of another type, out of its range, of a pair that there cannot be.
fn wrong_number(random: &mut Random, bridge: &Bridge, index: &[u32]) -> Binding {
    let entry = type_of(Object::PairBridgeNum);
    let content = match random.below(3) {
        0 => wrong_type(random, bridge, entry),
        1 => wrong_value(random, bridge, entry).unwrap_or_else(|| any(random)),
        _ => return bind(entry.object, &[index[1], index[0]], right(random, bridge, entry)),
    };
    bind(entry.object, index, content)
}

/// A state and a bridge number of one pair, present or absent, one of them missing or at fault.
pub fn half_a_pair(random: &mut Random, bridge: &Bridge) -> Vec<Binding> {
    let present = if random.chance(40) { present_index(random, bridge, Shape::Pair) } else { None };
    let index = present.unwrap_or_else(|| possible_index(random, bridge, Shape::Pair));
    let mut group = match random.below(7) {
        0 | 1 => vec![state(random, &index, &[1, 2])],
        2 => vec![number(random, &index)],
        3 => vec![number(random, &index), state(random, &index, &[3])],
        4 => vec![number(random, &index), state(random, &index, &[0, 4, 6, -1])],
        _ => vec![wrong_number(random, bridge, &index), state(random, &index, &[1, 2, 3])],
    };
    random.shuffle(&mut group);
    group
}

/// As many whole pairs as the table has room for, or fewer, and one or two that lack their number, in any order.
pub fn last_pairs(random: &mut Random, bridge: &Bridge) -> Vec<Binding> {
    let mut absent = all_pairs(bridge.ports);
    absent.retain(|index| !bridge.pairs.contains_key(index));
    random.shuffle(&mut absent);
    let whole = (MOST_PAIRS - bridge.pairs.len()).min(random.below(8));
    let lacking = 1 + random.below(2);
    let mut bindings = Vec::new();
    for (at, index) in absent.iter().take(whole + lacking).enumerate() {
        let mut group = vec![state(random, index, &[1, 2])];
        if at < whole {
            group.push(number(random, index));
        }
        add(&mut bindings, group);
    }
    random.shuffle(&mut bindings);
    bindings
}

/// Some pairs, most of them whole, among others that lack something or are of ports that make no pair.
pub fn pairs(random: &mut Random, bridge: &Bridge) -> Vec<Binding> {
    let mut bindings = Vec::new();
    for _ in 0..1 + random.below(6) {
        let group = match random.below(5) {
            0 => half_a_pair(random, bridge),
            1 if random.chance(40) => {
                let entry = type_of(random.pick(&[Object::PairBridgeNum, Object::PairBridgeState]));
                let index = impossible_index(random, bridge, Shape::Pair);
                vec![bind(entry.object, &index, right(random, bridge, entry))]
            }
            _ => pair_group(random, bridge),
        };
        add(&mut bindings, group);
    }
    if random.chance(60) {
        random.shuffle(&mut bindings);
    }
    bindings
}

/// A few largest frames, now and then a number beside them.
pub fn frames(random: &mut Random, bridge: &Bridge) -> Vec<Binding> {
    let wrong = random.chance(40);
    let mut bindings = Vec::new();
    for _ in 0..1 + random.below(4) {
        let index = possible_index(random, bridge, Shape::Port);
        let frame = if wrong && random.chance(40) { no_frame(random) } else { random.pick(&LARGEST_FRAMES) as i32 };
        add(&mut bindings, vec![bind(Object::LargestFrame, &index, Content::Integer(frame))]);
    }
    bindings
}
