//! What one bridge holds, its instances in order, and what each of them reads.

use super::message::Content;
use super::names::{
    can_have, type_of, GrowingTable, Object, Shape, DEVICES, EDITIONS, MOST_ROWS, SOURCE_ROUTING, TABLE, TRANSPARENT,
};
use std::collections::BTreeMap;
use std::ops::Bound::{Excluded, Included, Unbounded};

/// The status of a static row that a reset removes.
pub const DELETE_ON_RESET: u32 = 4;

/// The three timers that belong together (E6).
pub const TIMERS: [Object; 3] = [Object::BridgeMaxAge, Object::BridgeHelloTime, Object::BridgeForwardDelay];

/// A second, in hundredths.
const SECOND: u32 = 100;

/// Port 1 is the highest bit, as in the octets that are written and read.
pub type PortSet = u64;

/// Six sub-ids of an address and a receive port.
pub type StaticIndex = [u32; 7];

#[derive(Clone, Default, PartialEq, Eq, Debug)]
pub struct VlanRow {
    pub active: bool,
    pub name: Vec<u8>,
    pub egress: PortSet,
    pub forbidden: PortSet,
    pub untagged: PortSet,
}

#[derive(Clone, PartialEq, Eq, Debug)]
pub struct StaticRow {
    pub allowed: PortSet,
    pub status: u32,
}

/// The lower port and the higher one.
pub type PairIndex = [u32; 2];

#[derive(Clone, PartialEq, Eq, Debug)]
pub struct PairRow {
    pub number: u32,
    pub state: u32,
}

#[derive(Clone, PartialEq, Eq, Debug)]
pub struct Bridge {
    pub ports: u32,
    /// 1 old, 2 new: which priorities there are (E4).
    pub edition: u32,
    /// 1 transparent, 2 source routing: which objects there are (E12).
    pub device: u32,
    pub address: [u8; 6],
    /// For each object of the device whose instances always stand: its numbers, in the order of its instances.
    pub settings: BTreeMap<Object, Vec<u32>>,
    pub vlan_deletes: u32,
    pub vlans: BTreeMap<u32, VlanRow>,
    pub statics: BTreeMap<StaticIndex, StaticRow>,
    pub pairs: BTreeMap<PairIndex, PairRow>,
}

/// The ports 1..N.
pub fn all_ports(ports: u32) -> PortSet {
    u64::MAX << (64 - ports)
}

/// 802.1D's two rules for timers that are in their ranges, in hundredths and in the order of `TIMERS`.
pub fn timers_agree([max_age, hello_time, forward_delay]: [u32; 3]) -> bool {
    2 * (forward_delay - SECOND) >= max_age && max_age >= 2 * (hello_time + SECOND)
}

impl Bridge {
    /// A fresh bridge; none where there is no such bridge.
    pub fn fresh(ports: u32, edition: u32, device: u32, address: &[u8]) -> Option<Bridge> {
        let address = address.try_into().ok()?;
        if !(1..=64).contains(&ports) || !EDITIONS.contains(&edition) || !DEVICES.contains(&device) {
            return None;
        }
        let fresh = |object| (0..instances(object, ports)).map(move |place| fresh_value(object, place)).collect();
        let stored = TABLE.iter().filter(|entry| entry.is_setting() && entry.is_of(device));
        let all = all_ports(ports);
        let first = VlanRow { active: true, egress: all, untagged: all, ..VlanRow::default() };
        Some(Bridge {
            ports,
            edition,
            device,
            address,
            settings: stored.map(|entry| (entry.object, fresh(entry.object))).collect(),
            vlan_deletes: 0,
            vlans: if device == TRANSPARENT { BTreeMap::from([(1, first)]) } else { BTreeMap::new() },
            statics: BTreeMap::new(),
            pairs: BTreeMap::new(),
        })
    }

    /// A fresh bridge of the same ports, edition, device and address.
    pub fn made_fresh(&self) -> Bridge {
        Bridge::fresh(self.ports, self.edition, self.device, &self.address).expect("what this bridge has")
    }

    /// Rows that stand in a growing table.
    pub fn rows(&self, table: GrowingTable) -> usize {
        match table {
            GrowingTable::Vlan => self.vlans.len(),
            GrowingTable::Static => self.statics.len(),
            GrowingTable::Pair => self.pairs.len(),
        }
    }

    /// Rows that a growing table can have on this bridge.
    pub fn room(&self, table: GrowingTable) -> usize {
        table.room(self.device)
    }

    /// Static rows that are to be deleted on reset go; all else stays.
    pub fn reset(&mut self) {
        self.statics.retain(|_, row| row.status != DELETE_ON_RESET);
    }

    /// How many VLAN rows are active: NumVlans, and the total that a block stores (E5).
    pub fn active_vlans(&self) -> usize {
        self.vlans.values().filter(|row| row.active).count()
    }

    /// The three timers, in the order of `TIMERS`; none where the device has no timers.
    pub fn timers(&self) -> Option<[u32; 3]> {
        (self.device == TRANSPARENT).then(|| TIMERS.map(|timer| self.settings[&timer][0]))
    }

    /// What an instance holds; none where there is no such instance.
    pub fn get(&self, object: Object, index: &[u32]) -> Option<Content> {
        let shape = type_of(object).shape;
        if !type_of(object).is_of(self.device) || !can_have(shape, self.ports, index) {
            return None;
        }
        match shape {
            Shape::Vlan => self.vlans.get(&index[0]).map(|row| self.vlan_column(object, row)),
            Shape::Static => {
                let index: StaticIndex = index.try_into().ok()?;
                self.statics.get(&index).map(|row| self.static_column(object, &index, row))
            }
            Shape::Pair => {
                let index: PairIndex = index.try_into().ok()?;
                self.pairs.get(&index).map(|row| pair_column(object, &index, row))
            }
            _ => Some(self.standing(object, index)),
        }
    }

    /// An instance that always stands.
    fn standing(&self, object: Object, index: &[u32]) -> Content {
        let integer = |number: u32| Content::Integer(number as i32);
        match object {
            Object::BridgeAddress => Content::String(self.address.to_vec()),
            Object::NumPorts => integer(self.ports),
            Object::Type => integer(if self.device == SOURCE_ROUTING { 3 } else { 2 }),
            Object::Port | Object::IfIndex | Object::StpPort => integer(index[0]),
            Object::NumTrafficClasses => integer(8),
            Object::VlanVersionNumber => integer(1),
            Object::MaxVlanId => integer(4094),
            Object::MaxSupportedVlans => Content::Unsigned(MOST_ROWS as u32),
            Object::NumVlans => Content::Unsigned(self.active_vlans() as u32),
            Object::VlanNumDeletes => Content::Counter(self.vlan_deletes),
            Object::Pvid => Content::Unsigned(self.settings[&object][place(index)]),
            _ => integer(self.settings[&object][place(index)]),
        }
    }

    fn vlan_column(&self, object: Object, row: &VlanRow) -> Content {
        match object {
            Object::VlanName => Content::String(row.name.clone()),
            Object::VlanEgress => self.port_octets(row.egress),
            Object::VlanForbidden => self.port_octets(row.forbidden),
            Object::VlanUntagged => self.port_octets(row.untagged),
            _ => Content::Integer(if row.active { 1 } else { 2 }),
        }
    }

    fn static_column(&self, object: Object, index: &StaticIndex, row: &StaticRow) -> Content {
        match object {
            Object::StaticAddress => Content::String(index[..6].iter().map(|sub_id| *sub_id as u8).collect()),
            Object::StaticReceivePort => Content::Integer(index[6] as i32),
            Object::StaticAllowedToGoTo => self.port_octets(row.allowed),
            _ => Content::Integer(row.status as i32),
        }
    }

    fn port_octets(&self, ports: PortSet) -> Content {
        let octets = self.ports.div_ceil(8) as usize;
        Content::String(ports.to_be_bytes()[..octets].to_vec())
    }

    /// The least index above the rest of a name, among instances of this shape; a prefix is below what it begins.
    pub fn next_index(&self, shape: Shape, rest: &[u32]) -> Option<Vec<u32>> {
        let first = |least: u32, most: u32| match rest {
            [] => Some(least),
            [sub_id, ..] => sub_id.checked_add(1).map(|next| next.max(least)).filter(|next| *next <= most),
        };
        match shape {
            Shape::Scalar => rest.is_empty().then(|| vec![0]),
            Shape::Port => first(1, self.ports).map(|port| vec![port]),
            Shape::PortPriority => self.next_port_priority(rest),
            Shape::Vlan => {
                let above = rest.first().map_or(Unbounded, |id| Excluded(*id));
                self.vlans.range((above, Unbounded)).next().map(|(id, _)| vec![*id])
            }
            Shape::Static => {
                let above = static_bound(rest);
                self.statics.range((above, Unbounded)).next().map(|(index, _)| index.to_vec())
            }
            Shape::Pair => {
                let above = |index: &&PairIndex| index[..] > *rest;
                self.pairs.keys().find(above).map(|index| index.to_vec())
            }
        }
    }

    fn next_port_priority(&self, rest: &[u32]) -> Option<Vec<u32>> {
        let (port, priority) = match rest {
            [] | [0, ..] => (1, 0),
            [port] => (*port, 0),
            [port, priority, ..] if *priority < 7 => (*port, priority + 1),
            [port, ..] => (port.checked_add(1)?, 0),
        };
        (port <= self.ports).then(|| vec![port, priority])
    }
}

fn pair_column(object: Object, index: &PairIndex, row: &PairRow) -> Content {
    let number = match object {
        Object::PairLowPort => index[0],
        Object::PairHighPort => index[1],
        Object::PairBridgeNum => row.number,
        _ => row.state,
    };
    Content::Integer(number as i32)
}

/// The static indexes above the rest of a name: those that it begins too, but not the one that it is.
fn static_bound(rest: &[u32]) -> std::ops::Bound<StaticIndex> {
    match rest.first_chunk::<7>() {
        Some(index) => Excluded(*index),
        None => {
            let mut index = [0; 7];
            index[..rest.len()].copy_from_slice(rest);
            Included(index)
        }
    }
}

/// How many instances an object has whose instances always stand.
pub fn instances(object: Object, ports: u32) -> usize {
    match type_of(object).shape {
        Shape::Port => ports as usize,
        Shape::PortPriority => ports as usize * 8,
        _ => 1,
    }
}

/// Where an index stands among the instances of its object.
pub fn place(index: &[u32]) -> usize {
    match index {
        [port, priority] => (*port as usize - 1) * 8 + *priority as usize,
        [port] if *port > 0 => *port as usize - 1,
        _ => 0,
    }
}

fn fresh_value(object: Object, place: usize) -> u32 {
    let priority = place % 8;
    match object {
        Object::StpPriority => 32768,
        Object::BridgeMaxAge => 2000,
        Object::BridgeHelloTime => 200,
        Object::BridgeForwardDelay => 1500,
        Object::StpPortPriority => 128,
        Object::StpPortEnable => 1,
        Object::StpPortPathCost => 100,
        Object::LargestFrame => 1470,
        Object::AgingTime => 300,
        Object::DefaultUserPriority => 0,
        Object::RegenUserPriority => priority as u32,
        Object::TrafficClass => [2, 0, 1, 3, 4, 5, 6, 7][priority],
        Object::Pvid => 1,
        Object::AcceptableFrameTypes => 1,
        Object::IngressFiltering => 2,
        _ => unreachable!("{object:?} is no setting"),
    }
}
