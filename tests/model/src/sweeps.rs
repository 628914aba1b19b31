//! What is tried octet by octet and name by name, and not at random: every octet of a block and of some requests
//! changed, every range at its ends, every cut of these requests, and every name beside an instance.

use crate::generate::start;
use crate::library::Library;
use crate::model::bridge::Bridge;
use crate::model::image::{BLOCK, CELLS, PAIR_ROW, PAIR_ROWS, STATIC_ROW, STATIC_ROWS, VLAN_ROW, VLAN_ROWS};
use crate::model::message::{write_request, Binding, Content, Kind, Request};
use crate::model::names::{type_of, Object, Syntax, DEVICES, EDITIONS, LARGEST_FRAMES, SOURCE_ROUTING, TRANSPARENT};
use crate::player::{Failure, Player};
use crate::random::Random;
use crate::step::{History, Step};
use crate::tally::Tally;

type Swept = Result<(), Box<(History, Failure)>>;

/// A bridge with a few rows in its growing tables.
fn small_bridge(random: &mut Random, ports: u32, edition: u32, device: u32) -> Bridge {
    let fresh = Bridge::fresh(ports, edition, device, &start::address(random)).expect("1 to 64 ports");
    let mut bridge = start::filled(random, fresh);
    while bridge.vlans.len() > 4 {
        bridge.vlans.pop_first();
    }
    while bridge.statics.len() > 4 {
        bridge.statics.pop_last();
    }
    while bridge.pairs.len() > 4 {
        bridge.pairs.pop_first();
    }
    bridge
}

fn message(kind: Kind, bindings: Vec<Binding>) -> Vec<u8> {
    write_request(&Request { kind, id: 0x0102_0304, bindings })
}

fn bind(object: Object, index: &[u32], content: Content) -> Binding {
    Binding { name: type_of(object).name(index), content }
}

/// Plays some steps on a bridge; the block is the same before each of these runs.
fn play_all(library: Library, start: &Bridge, runs: impl Iterator<Item = Vec<Step>>, tally: &mut Tally) -> Swept {
    let history = |steps| History { start: start.clone(), steps };
    let failed = |steps, difference, step, block| Err(Box::new((history(steps), Failure { difference, step, block })));
    let mut player = match Player::start(library, start, tally) {
        Ok(player) => player,
        Err(difference) => return failed(Vec::new(), difference, 0, Box::default()),
    };
    let fresh = player.twin.clone();
    for steps in runs {
        for (at, step) in steps.iter().enumerate() {
            if let Err(difference) = player.play(step) {
                return failed(steps, difference, at + 1, player.twin.block);
            }
        }
        if player.twin.expected != fresh.expected {
            player.twin = fresh.clone();
        }
    }
    Ok(())
}

/// Every octet of a block of each edition and of each device.
pub fn every_block_octet(library: Library, random: &mut Random, tally: &mut Tally) -> Swept {
    for (edition, device) in [(1, TRANSPARENT), (2, TRANSPARENT), (1, SOURCE_ROUTING)] {
        every_octet_of(library, (edition, device), random, tally)?;
    }
    Ok(())
}

/// Every octet of a block, changed once; those that hold something, changed in more ways.
fn every_octet_of(library: Library, (edition, device): (u32, u32), random: &mut Random, tally: &mut Tally) -> Swept {
    let start = small_bridge(random, 9, edition, device);
    let block = start.image();
    let asked = message(Kind::Get, vec![bind(Object::NumPorts, &[0], Content::Null)]);
    let holds = |at: usize| {
        at < VLAN_ROWS
            || (VLAN_ROWS..VLAN_ROWS + VLAN_ROW * (start.vlans.len() + 1)).contains(&at)
            || (STATIC_ROWS..STATIC_ROWS + STATIC_ROW * (start.statics.len() + 1)).contains(&at)
            || (PAIR_ROWS..PAIR_ROWS + PAIR_ROW * (start.pairs.len() + 1)).contains(&at)
    };
    let changes = block.iter().enumerate().flat_map(|(offset, octet)| {
        let any = octet ^ (1 << random.below(8));
        let ways = if holds(offset) { 5 } else { 1 };
        let octets = [any, octet.wrapping_add(1), octet.wrapping_sub(1), 0, 255];
        octets.into_iter().take(ways).map(move |octet| (offset, octet))
    });
    let changes: Vec<(usize, u8)> = changes.collect();
    let runs = changes.into_iter().map(|(offset, octet)| {
        let poke = Step::Poke { offset, octets: vec![octet] };
        vec![poke, Step::call(asked.clone()), Step::Reset { block_len: BLOCK }]
    });
    play_all(library, &start, runs, tally)
}

/// Every object's numbers at the ends of their range and one beyond. All others are at the same ends, where the timers
/// belong together with room on both sides but for the least ForwardDelay, so that a rule hides no range.
pub fn every_range(library: Library, random: &mut Random, tally: &mut Tally) -> Swept {
    let asked = message(Kind::Get, vec![bind(Object::NumPorts, &[0], Content::Null)]);
    let ends = [false, true];
    let kinds = DEVICES.flat_map(|device| EDITIONS.map(move |edition| (device, edition)));
    for ((device, edition), at_high) in kinds.flat_map(|kind| ends.into_iter().map(move |end| (kind, end))) {
        let mut start = Bridge::fresh(9, edition, device, &start::address(random)).expect("1 to 64 ports");
        for (object, numbers) in &mut start.settings {
            let (low, high) = range(*object, edition);
            numbers.fill(if at_high { high } else { low });
        }
        let pokes = CELLS.iter().flat_map(|(object, first)| {
            let (low, high) = range(*object, edition);
            // Cells of the other device stand too, and must be 0.
            let last = first + 4 * (start.settings.get(object).map_or(1, Vec::len) - 1);
            let numbers = if at_high { [high, high + 1] } else { [low, low.wrapping_sub(1)] };
            [(*first, numbers[0]), (*first, numbers[1]), (last, numbers[0]), (last, numbers[1])]
        });
        let runs = pokes.map(|(offset, number)| {
            let poke = Step::Poke { offset, octets: number.to_be_bytes().to_vec() };
            vec![poke, Step::call(asked.clone()), Step::Reset { block_len: BLOCK }]
        });
        play_all(library, &start, runs.collect::<Vec<_>>().into_iter(), tally)?;
    }
    Ok(())
}

/// The least and the most that an object takes.
fn range(object: Object, edition: u32) -> (u32, u32) {
    match (edition, object, type_of(object).syntax) {
        (2, Object::StpPriority, _) => (0, 61440),
        (2, Object::StpPortPriority, _) => (0, 240),
        (_, _, Syntax::Integer(low, high) | Syntax::Unsigned(low, high)) => (low, high),
        (_, _, Syntax::Frame) => (LARGEST_FRAMES[0], LARGEST_FRAMES[63]),
        _ => unreachable!("{object:?} has no cells"),
    }
}

/// Every number about the largest frames: set on a port, and as the cell of one.
pub fn every_frame(library: Library, random: &mut Random, tally: &mut Tally) -> Swept {
    let start = small_bridge(random, 3, 1, SOURCE_ROUTING);
    let (_, first) = CELLS.into_iter().find(|(object, _)| *object == Object::LargestFrame).expect("a cell");
    let numbers = (0..=2100).chain(LARGEST_FRAMES.into_iter().flat_map(|frame| frame - 2..=frame + 2));
    let runs = numbers.chain([65536, 65536 + 1470, 0x8000_05BE]).map(|frame| {
        let set = message(Kind::Set, vec![bind(Object::LargestFrame, &[2], Content::Integer(frame as i32))]);
        let get = message(Kind::Get, vec![bind(Object::LargestFrame, &[2], Content::Null)]);
        let poke = Step::Poke { offset: first + 4, octets: frame.to_be_bytes().to_vec() };
        vec![Step::call(set), Step::call(get.clone()), poke, Step::call(get)]
    });
    play_all(library, &start, runs, tally)
}

/// A state, a bridge number, and both, of every two sub-ids about the ports, on a bridge of few ports with some pairs.
pub fn every_pair(library: Library, random: &mut Random, tally: &mut Tally) -> Swept {
    for ports in [1, 2, 4] {
        let start = small_bridge(random, ports, 2, SOURCE_ROUTING);
        let indexes = (0..=ports + 1).flat_map(|low| (0..=ports + 1).map(move |high| [low, high]));
        let runs = indexes.flat_map(|index| {
            let number = bind(Object::PairBridgeNum, &index, Content::Integer(7));
            let state = |number| bind(Object::PairBridgeState, &index, Content::Integer(number));
            let groups = [0, 1, 2, 3, 4].map(|number| vec![state(number)]).into_iter();
            let both = [1, 2, 3].map(|of| [vec![state(of), number.clone()], vec![number.clone(), state(of)]]).concat();
            let all: Vec<Vec<Binding>> = groups.chain(both).chain([vec![number.clone()]]).collect();
            let columns = [Object::PairLowPort, Object::PairHighPort, Object::PairBridgeNum, Object::PairBridgeState];
            let asked = columns.map(|column| bind(column, &index, Content::Null)).to_vec();
            all.into_iter().map(move |group| {
                let get = Step::call(message(Kind::Get, asked.clone()));
                vec![Step::call(message(Kind::Set, group)), get, Step::call(message(Kind::GetNext, asked.clone()))]
            })
        });
        play_all(library, &start, runs, tally)?;
    }
    Ok(())
}

/// Requests of each kind with contents of each type.
fn requests() -> Vec<Vec<u8>> {
    let asked = |object, index: &[u32]| bind(object, index, Content::Null);
    let made = vec![
        bind(Object::VlanEgress, &[10], Content::String(vec![0xA0])),
        bind(Object::VlanRowStatus, &[10], Content::Integer(4)),
        bind(Object::Pvid, &[1], Content::Unsigned(10)),
        bind(Object::VlanNumDeletes, &[0], Content::Counter(1)),
    ];
    let short = Binding { name: vec![1, 3], content: Content::Null };
    vec![
        message(Kind::Get, vec![asked(Object::NumPorts, &[0]), asked(Object::VlanName, &[1])]),
        message(Kind::GetNext, vec![asked(Object::StaticStatus, &[]), short.clone()]),
        message(Kind::Set, made),
        message(Kind::Get, vec![short; 16]),
        message(Kind::Set, Vec::new()),
    ]
}

/// Some requests cut at every octet, with every octet changed in some ways, and with an octet put in at every place.
pub fn every_request_octet(library: Library, random: &mut Random, tally: &mut Tally) -> Swept {
    let start = small_bridge(random, 4, 1, TRANSPARENT);
    let mut runs = Vec::new();
    for request in requests() {
        for at in 0..request.len() {
            let octet = request[at];
            runs.push(request[..at].to_vec());
            let any = random.octet();
            for changed in
                [octet.wrapping_add(1), octet.wrapping_sub(1), octet ^ 0x80, 0, 1, 3, 4, 0x10, 0x20, 0x22, any]
            {
                let mut octets = request.clone();
                octets[at] = changed;
                runs.push(octets);
            }
            for put_in in [0, 0x10, octet] {
                let mut octets = request.clone();
                octets.insert(at, put_in);
                runs.push(octets);
            }
        }
    }
    play_all(library, &start, runs.into_iter().map(|request| vec![Step::call(request)]), tally)
}

/// Get and get-next of every name that is an instance, begins one, or differs from one in a sub-id by one.
pub fn every_name(library: Library, random: &mut Random, tally: &mut Tally) -> Swept {
    // One port in edition 1, two in edition 2; a source-routing bridge has some pairs.
    for (ports, edition, device) in [(1, 1, TRANSPARENT), (2, 2, TRANSPARENT), (5, 1, SOURCE_ROUTING)] {
        let start = small_bridge(random, ports, edition, device);
        let mut asked = Vec::new();
        let mut next = start.next_binding(&[0, 0]);
        while next.content != Content::EndOfMibView {
            asked.extend(names_beside(&next.name));
            next = start.next_binding(&next.name);
        }
        asked.sort();
        asked.dedup();
        let asked: Vec<Binding> = asked.into_iter().map(|name| Binding { name, content: Content::Null }).collect();
        let runs = asked.chunks(12).map(|names| {
            vec![Step::call(message(Kind::Get, names.to_vec())), Step::call(message(Kind::GetNext, names.to_vec()))]
        });
        play_all(library, &start, runs, tally)?;
    }
    Ok(())
}

fn names_beside(name: &[u32]) -> Vec<Vec<u32>> {
    let mut names: Vec<Vec<u32>> = (2..=name.len()).map(|length| name[..length].to_vec()).collect();
    for sub_id in [0, 1, u32::MAX] {
        names.push([name, &[sub_id]].concat());
    }
    for at in 0..name.len() {
        for changed in [name[at].wrapping_add(1), name[at].wrapping_sub(1)] {
            let mut beside = name.to_vec();
            beside[at] = changed;
            // The rest after a changed sub-id decides nothing, but may mislead.
            names.push(beside[..=at].to_vec());
            names.push(beside);
        }
    }
    names.retain(|name| name.len() >= 2);
    names
}
