//! Bridges that a history starts from.

use super::contents::{agreeing_timers, port_set, taken_number};
use crate::model::bridge::{Bridge, PairRow, StaticRow, VlanRow, TIMERS};
use crate::model::names::{MOST_PAIRS, SOURCE_ROUTING, TRANSPARENT};
use crate::random::Random;

/// Numbers of ports on both sides of every octet border, and the ends.
pub const PORTS: [u32; 18] = [1, 2, 3, 4, 5, 7, 8, 9, 15, 16, 17, 31, 32, 33, 56, 57, 63, 64];

pub fn ports(random: &mut Random) -> u32 {
    if random.chance(80) {
        random.pick(&PORTS)
    } else {
        random.within(1, 64)
    }
}

pub fn edition(random: &mut Random) -> u32 {
    random.pick(&[1, 2])
}

pub fn device(random: &mut Random) -> u32 {
    if random.chance(35) {
        SOURCE_ROUTING
    } else {
        TRANSPARENT
    }
}

/// A fresh bridge of any number of ports, edition and device; source-routing bridges have more often the ports that a full
/// table of pairs needs.
pub fn fresh(random: &mut Random) -> Bridge {
    let (edition, device) = (edition(random), device(random));
    let ports = if device == SOURCE_ROUTING && random.chance(40) { random.within(12, 20) } else { ports(random) };
    Bridge::fresh(ports, edition, device, &address(random)).expect("ports, an edition, a device and an address")
}

pub fn address(random: &mut Random) -> [u8; 6] {
    random.octets(6).try_into().unwrap()
}

/// Random numbers in every range, timers that belong together, and tables of few, many or all the rows they can have.
pub fn filled(random: &mut Random, mut bridge: Bridge) -> Bridge {
    let edition = bridge.edition;
    if let Some(old) = bridge.timers() {
        let (timers, _) = agreeing_timers(random, old);
        for (timer, number) in TIMERS.iter().zip(timers) {
            bridge.settings.insert(*timer, vec![number]);
        }
    }
    for (object, numbers) in bridge.settings.iter_mut().filter(|(object, _)| !TIMERS.contains(object)) {
        if random.chance(70) {
            numbers.iter_mut().for_each(|number| *number = taken_number(random, *object, edition));
        }
    }
    if bridge.device == SOURCE_ROUTING {
        fill_pairs(random, &mut bridge);
    } else {
        fill_rows(random, &mut bridge);
    }
    bridge
}

fn fill_rows(random: &mut Random, bridge: &mut Bridge) {
    let any = random.number() as u32;
    bridge.vlan_deletes = random.pick(&[0, 1, u32::MAX, u32::MAX - 1, 0x00FF_FFFF, any]);
    bridge.vlans.clear();
    let (vlans, statics) = (rows(random), rows(random));
    let dense = random.chance(50);
    let first = random.pick(&[1, 2, 1000, 4094 - 255]);
    // Of a hundred rows; where all are active, the total of a full table is 256.
    let active = random.pick(&[60, 60, 100]);
    while bridge.vlans.len() < vlans {
        let id = if dense { first + bridge.vlans.len() as u32 } else { random.within(1, 4094) };
        bridge.vlans.insert(id, vlan_row(random, bridge.ports, active));
    }
    while bridge.statics.len() < statics {
        let index = static_index(random, bridge.ports, dense);
        let row = StaticRow { allowed: port_set(random, bridge.ports), status: random.within(3, 5) };
        bridge.statics.insert(index, row);
    }
}

/// Every pair of a bridge's ports.
pub fn all_pairs(ports: u32) -> Vec<[u32; 2]> {
    (1..=ports).flat_map(|low| (low + 1..=ports).map(move |high| [low, high])).collect()
}

fn fill_pairs(random: &mut Random, bridge: &mut Bridge) {
    let few = random.below(10);
    let wanted =
        random.pick(&[0, 1, 2, few, 30, MOST_PAIRS - 2, MOST_PAIRS - 1, MOST_PAIRS - 1, MOST_PAIRS, MOST_PAIRS]);
    let mut pairs = all_pairs(bridge.ports);
    if random.chance(70) {
        random.shuffle(&mut pairs);
    }
    for index in pairs.into_iter().take(wanted) {
        bridge.pairs.insert(index, PairRow { number: random.within(0, 15), state: random.within(1, 2) });
    }
}

fn rows(random: &mut Random) -> usize {
    let few = random.below(20);
    random.pick(&[0, 1, 2, few, few, 100, 254, 255, 255, 256, 256])
}

fn vlan_row(random: &mut Random, ports: u32, active: usize) -> VlanRow {
    let egress = port_set(random, ports);
    let octets = random.within(0, 32) as usize;
    VlanRow {
        active: random.chance(active),
        name: random.octets(octets),
        egress,
        forbidden: port_set(random, ports) & !egress,
        untagged: port_set(random, ports),
    }
}

/// Dense addresses differ in few octets, and more rows have one address with different receive ports.
fn static_index(random: &mut Random, ports: u32, dense: bool) -> [u32; 7] {
    let octet = |random: &mut Random| if dense { random.pick(&[0, 1, 2, 255]) } else { random.within(0, 255) };
    let mut index: [u32; 7] = std::array::from_fn(|_| octet(random));
    index[6] = random.within(0, ports);
    index
}
