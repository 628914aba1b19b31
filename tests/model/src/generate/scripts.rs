//! Short runs of steps, each aimed at one thing, chosen for what the bridge holds when the run begins.

use super::blocks::pokes;
use super::damage;
use super::names::{any_name, instance, present_index};
use super::{pairs, sets};
use crate::model::bridge::Bridge;
use crate::model::image::BLOCK;
use crate::model::message::{write_request, Binding, Content, Kind, Request, LONGEST, MOST_BINDINGS};
use crate::model::names::{type_of, Object, DEVICES, SOURCE_ROUTING, TRANSPARENT};
use crate::model::terms::named_by;
use crate::random::Random;
use crate::step::Step;

/// Steps with one aim. They leave a legal block where there was one.
type Script = fn(&mut Random, &Bridge) -> Vec<Step>;

/// The devices that a script is for.
type Devices = std::ops::RangeInclusive<u32>;
const FIRST: Devices = TRANSPARENT..=TRANSPARENT;
const SECOND: Devices = SOURCE_ROUTING..=SOURCE_ROUTING;

/// All scripts, how often each comes among about a hundred of a device, and which devices have it.
pub const SCRIPTS: [(&str, usize, Devices, Script); 24] = [
    ("get", 9, DEVICES, |random, bridge| call(random, bridge, Kind::Get, any_names)),
    ("get-next", 9, DEVICES, |random, bridge| call(random, bridge, Kind::GetNext, any_names)),
    ("walk of a part", 3, DEVICES, walk_of_a_part),
    ("whole walk", 1, DEVICES, whole_walk),
    ("set and gets", 8, DEVICES, set_and_gets),
    ("faulty set", 11, DEVICES, |random, bridge| call(random, bridge, Kind::Set, sets::faulty)),
    ("timers", 4, FIRST, |random, bridge| call(random, bridge, Kind::Set, sets::timers_together)),
    ("priorities", 2, FIRST, |random, bridge| call(random, bridge, Kind::Set, sets::priorities)),
    ("crowded set", 6, DEVICES, |random, bridge| call(random, bridge, Kind::Set, sets::crowded)),
    ("exchange of Egress and Forbidden", 2, FIRST, exchange),
    ("port pairs", 8, SECOND, |random, bridge| call(random, bridge, Kind::Set, pairs::pairs)),
    ("half a pair", 4, SECOND, |random, bridge| call(random, bridge, Kind::Set, pairs::half_a_pair)),
    ("last pairs", 3, SECOND, |random, bridge| call(random, bridge, Kind::Set, pairs::last_pairs)),
    ("largest frames", 4, SECOND, |random, bridge| call(random, bridge, Kind::Set, pairs::frames)),
    ("rows made and removed", 9, DEVICES, |random, bridge| call(random, bridge, Kind::Set, sets::at_full)),
    ("long answer", 4, DEVICES, |random, bridge| vec![long_answer(random, bridge)]),
    ("damaged request", 9, DEVICES, |random, bridge| vec![Step::call(damaged(random, bridge))]),
    ("many bindings", 3, DEVICES, |random, _| vec![Step::call(damage::many_bindings(random))]),
    ("wrong inside", 2, DEVICES, |random, _| vec![Step::call(damage::wrong_inside(random))]),
    ("damaged block", 7, DEVICES, damaged_block),
    ("wrong sizes", 2, DEVICES, |random, bridge| vec![wrong_sizes(random, bridge)]),
    ("long request", 2, DEVICES, |random, bridge| vec![Step::call(long_request(random, bridge))]),
    ("reset", 2, DEVICES, reset),
    ("pair in both orders", 5, DEVICES, |random, bridge| vec![pair(random, bridge)]),
];

/// The next steps of a history, and the number of their script.
pub fn script(random: &mut Random, bridge: &Bridge) -> (usize, Vec<Step>) {
    let of_device = || SCRIPTS.iter().enumerate().filter(|(_, (_, _, devices, _))| devices.contains(&bridge.device));
    let mut left = random.below(of_device().map(|(_, (_, share, ..))| share).sum());
    for (at, (_, share, _, script)) in of_device() {
        if left < *share {
            return (at, script(random, bridge));
        }
        left -= share;
    }
    unreachable!("the shares add up")
}

/// Sets that fill a table, for histories that start from a fresh block.
pub fn fill(random: &mut Random, bridge: &Bridge) -> Vec<Step> {
    let but = random.below(2);
    let messages = sets::filling(random, bridge, but);
    messages.into_iter().map(|message| as_call(random, Kind::Set, message)).collect()
}

fn request(random: &mut Random, kind: Kind, bindings: Vec<Binding>) -> Request {
    let ids = [0, 1, 7, 0x7FFF_FFFF, 0xFFFF_FFFF, random.number() as u32];
    Request { kind, id: random.pick(&ids), bindings }
}

fn as_call(random: &mut Random, kind: Kind, bindings: Vec<Binding>) -> Step {
    let request = write_request(&request(random, kind, bindings));
    let wide = LONGEST + random.below(600);
    Step::Call { request, block_len: BLOCK, room_len: random.pick(&[LONGEST, LONGEST, LONGEST + 1, wide]) }
}

type Bindings = fn(&mut Random, &Bridge) -> Vec<Binding>;

fn call(random: &mut Random, bridge: &Bridge, kind: Kind, bindings: Bindings) -> Vec<Step> {
    let bindings = bindings(random, bridge);
    vec![as_call(random, kind, bindings)]
}

fn exchange(random: &mut Random, bridge: &Bridge) -> Vec<Step> {
    let messages = sets::exchange(random, bridge);
    messages.into_iter().map(|message| as_call(random, Kind::Set, message)).collect()
}

fn asking(name: Vec<u32>) -> Binding {
    Binding { name, content: Content::Null }
}

/// 0 to 16 names, as many as a request has room for.
fn any_names(random: &mut Random, bridge: &Bridge) -> Vec<Binding> {
    let most = random.below(MOST_BINDINGS + 1);
    let count = random.pick(&[1, 2, most, most]);
    let mut bindings = Vec::new();
    let mut octets = 16;
    for _ in 0..count {
        let name = any_name(random, bridge);
        octets += 9 + 4 * name.len();
        if octets <= LONGEST {
            bindings.push(asking(name));
        }
    }
    bindings
}

/// A set that should be accepted, and gets of what it wrote and of the counts.
fn set_and_gets(random: &mut Random, bridge: &Bridge) -> Vec<Step> {
    let message = sets::careful(random, bridge);
    let counts = [Object::NumVlans, Object::VlanNumDeletes].map(|object| asking(type_of(object).name(&[0])));
    let written = message.iter().take(MOST_BINDINGS - 2).map(|binding| asking(binding.name.clone()));
    let gets = written.chain(counts).collect();
    vec![as_call(random, Kind::Set, message), as_call(random, Kind::Get, gets)]
}

/// All instances from the first to the end of the view.
fn whole_walk(random: &mut Random, bridge: &Bridge) -> Vec<Step> {
    let each = 1 + random.below(13);
    walk(random, bridge, vec![0, 0], usize::MAX, each)
}

fn walk_of_a_part(random: &mut Random, bridge: &Bridge) -> Vec<Step> {
    let name = any_name(random, bridge);
    let (most, each) = (1 + random.below(40), 1 + random.below(3));
    walk(random, bridge, name, most, each)
}

/// Asks for what comes after each of so many instances, from a name on, some in each message.
fn walk(random: &mut Random, bridge: &Bridge, mut name: Vec<u32>, most: usize, each: usize) -> Vec<Step> {
    let mut asked = vec![asking(name.clone())];
    while asked.len() < most {
        let next = bridge.next_binding(&name);
        if next.content == Content::EndOfMibView {
            break;
        }
        name = next.name;
        asked.push(asking(name.clone()));
    }
    // A walk of thousands is not done one by one.
    let each = each.max(asked.len() / 400 + 1);
    asked.chunks(each).map(|bindings| as_call(random, Kind::GetNext, bindings.to_vec())).collect()
}

/// A get or get-next whose answer has about as many octets as an answer can have.
fn long_answer(random: &mut Random, bridge: &Bridge) -> Step {
    let kind = random.pick(&[Kind::Get, Kind::GetNext]);
    let wanted = LONGEST - 6 + random.below(20);
    let mut bindings: Vec<Binding> = Vec::new();
    let mut octets = 16;
    while bindings.len() < MOST_BINDINGS && octets < wanted {
        let mut name = long_instance(random, bridge);
        // The last binding pads to the wanted length: an unknown name is answered by itself.
        let left = wanted - octets;
        if bindings.len() == MOST_BINDINGS - 1 || left < 120 {
            name = vec![2; (left.saturating_sub(9) / 4).clamp(2, 128)];
        }
        let answered = if kind == Kind::Get { bridge.get_binding(&name) } else { bridge.next_binding(&name) };
        octets += 9 + 4 * answered.name.len() + content_len(&answered.content);
        bindings.push(asking(name));
    }
    as_call(random, kind, bindings)
}

fn content_len(content: &Content) -> usize {
    match content {
        Content::String(octets) => octets.len(),
        Content::Integer(_) | Content::Unsigned(_) | Content::Counter(_) => 4,
        _ => 0,
    }
}

/// An instance with a long name or a long content: columns of the growing tables.
fn long_instance(random: &mut Random, bridge: &Bridge) -> Vec<u32> {
    let objects = [Object::VlanName, Object::VlanName, Object::StaticAllowedToGoTo, Object::StaticAddress];
    let entry = type_of(random.pick(&objects));
    match present_index(random, bridge, entry.shape) {
        Some(index) => entry.name(&index),
        None => instance(random, bridge),
    }
}

/// A request of any kind that is well formed.
fn well_formed(random: &mut Random, bridge: &Bridge) -> Request {
    let kinds: [(Kind, Bindings); 4] =
        [(Kind::Set, sets::careful), (Kind::Set, sets::faulty), (Kind::Get, any_names), (Kind::GetNext, any_names)];
    let (kind, bindings) = random.pick(&kinds);
    let bindings = bindings(random, bridge);
    request(random, kind, bindings)
}

fn damaged(random: &mut Random, bridge: &Bridge) -> Vec<u8> {
    if random.chance(10) {
        return damage::noise(random);
    }
    let request = well_formed(random, bridge);
    damage::damaged(random, &request)
}

/// Requests of about the most octets that are read, well formed or not.
fn long_request(random: &mut Random, bridge: &Bridge) -> Vec<u8> {
    let octets = LONGEST - 1 + random.below(5);
    if random.chance(20) {
        return random.octets(octets);
    }
    let request = well_formed(random, bridge);
    damage::about_longest(random, &request, octets)
}

/// The block is changed and asked, and put back where the change was not a legal one.
fn damaged_block(random: &mut Random, bridge: &Bridge) -> Vec<Step> {
    let block = bridge.image();
    let mut after = block.clone();
    let mut steps = Vec::new();
    for (offset, octets) in pokes(random, bridge, &block) {
        after[offset..offset + octets.len()].copy_from_slice(&octets);
        steps.push(Step::Poke { offset, octets });
    }
    let intact = random.chance(80);
    let asked = if intact { write_request(&well_formed(random, bridge)) } else { damaged(random, bridge) };
    if random.chance(30) {
        steps.push(Step::Reset { block_len: BLOCK });
    }
    steps.push(Step::call(asked));
    if Bridge::from_block(&after).is_none() {
        let differs = |at: &usize| block[*at] != after[*at];
        let first = (0..BLOCK).find(differs).unwrap_or(0);
        let last = (0..BLOCK).rfind(differs).unwrap_or(0);
        steps.push(Step::Poke { offset: first, octets: block[first..=last].to_vec() });
    }
    steps
}

/// Lengths of a block, wrong ones and, as often as some of them, the right one.
const BLOCK_LENS: [usize; 12] = [0, 1, 4, 31, 6196, 32767, 32767, 32769, 65536, BLOCK, BLOCK, BLOCK];

/// Resets, the last of them of a whole block, and a set that may make rows in the room that they give.
fn reset(random: &mut Random, bridge: &Bridge) -> Vec<Step> {
    let earlier = random.below(3);
    let mut steps: Vec<Step> = (0..earlier).map(|_| Step::Reset { block_len: random.pick(&BLOCK_LENS) }).collect();
    steps.push(Step::Reset { block_len: BLOCK });
    let mut after = bridge.clone();
    after.reset();
    steps.extend(call(random, &after, Kind::Set, sets::at_full));
    steps
}

/// Lengths of block, room and request that are wrong, alone and together.
fn wrong_sizes(random: &mut Random, bridge: &Bridge) -> Step {
    let request = match random.below(3) {
        0 => long_request(random, bridge),
        1 => damaged(random, bridge),
        _ => write_request(&well_formed(random, bridge)),
    };
    let room_len = random.pick(&[0, 1, 16, 69, 1471, 1471, 1472, 1472, 2000]);
    let block_len = random.pick(&BLOCK_LENS);
    Step::Call { request, block_len, room_len }
}

/// Two set messages that name nothing in common, with room for every row that they name.
fn pair(random: &mut Random, bridge: &Bridge) -> Step {
    let messages: [Bindings; 6] =
        [sets::careful, sets::careful, sets::faulty, sets::timers_together, sets::crowded, sets::at_full];
    let mut first = random.pick(&messages)(random, bridge);
    let mut second = random.pick(&messages)(random, bridge);
    let named = named_by(bridge, &first);
    second.retain(|binding| named.is_disjoint(&named_by(bridge, std::slice::from_ref(binding))));
    // Bindings go until there is room.
    while !bridge.may_cross(&first, &second) {
        let of_first = second.is_empty() || (!first.is_empty() && random.chance(50));
        let from = if of_first { &mut first } else { &mut second };
        from.remove(random.below(from.len()));
    }
    let room_lens = std::array::from_fn(|_| LONGEST + random.below(3) * random.below(100));
    let first = write_request(&request(random, Kind::Set, first));
    let second = write_request(&request(random, Kind::Set, second));
    Step::Pair { first, second, room_lens }
}
