//! The 32,768 octets of a block, as docs/LAYOUT.md tells.

use super::bridge::{all_ports, instances, timers_agree, Bridge, PairIndex, PairRow, PortSet, StaticRow, VlanRow};
use super::names::{can_have, takes, type_of, GrowingTable, Object, Shape, DEVICES, EDITIONS, TRANSPARENT};
use std::collections::BTreeMap;

pub const BLOCK: usize = 32768;
pub const PORTS: usize = 0;
pub const DELETES: usize = 4;
pub const VLAN_COUNT: usize = 8;
pub const STATIC_COUNT: usize = 12;
pub const ADDRESS: usize = 16;
pub const VLAN_TOTAL: usize = 22;
pub const EDITION: usize = 24;
pub const DEVICE: usize = 25;
pub const PAIR_COUNT: usize = 28;
pub const CELLS_START: usize = 32;
pub const MAX_AGE: usize = 36;
pub const VLAN_ROWS: usize = 6196;
pub const VLAN_ROW: usize = 60;
pub const STATIC_ROWS: usize = 21556;
pub const STATIC_ROW: usize = 16;
pub const PAIR_ROWS: usize = 25652;
pub const PAIR_ROW: usize = 4;
/// Behind the last row that a table can have, all octets are 0.
pub const ROWS_END: usize = 25908;

/// Where the cells of each object start, 4 octets for each instance.
pub const CELLS: [(Object, usize); 15] = [
    (Object::StpPriority, CELLS_START),
    (Object::BridgeMaxAge, MAX_AGE),
    (Object::BridgeHelloTime, 40),
    (Object::BridgeForwardDelay, 44),
    (Object::StpPortPriority, 48),
    (Object::StpPortEnable, 304),
    (Object::StpPortPathCost, 560),
    (Object::LargestFrame, 816),
    (Object::AgingTime, 1072),
    (Object::DefaultUserPriority, 1076),
    (Object::RegenUserPriority, 1332),
    (Object::TrafficClass, 3380),
    (Object::Pvid, 5428),
    (Object::AcceptableFrameTypes, 5684),
    (Object::IngressFiltering, 5940),
];

/// The cells of the objects that a device has.
fn cells_of(device: u32) -> impl Iterator<Item = (Object, usize)> {
    CELLS.into_iter().filter(move |(object, _)| type_of(*object).is_of(device))
}

impl Bridge {
    /// The block that holds this bridge.
    pub fn image(&self) -> Vec<u8> {
        let mut block = vec![0; BLOCK];
        put(&mut block, PORTS, &self.ports.to_be_bytes());
        put(&mut block, DELETES, &self.vlan_deletes.to_be_bytes());
        put(&mut block, VLAN_COUNT, &(self.vlans.len() as u32).to_be_bytes());
        put(&mut block, STATIC_COUNT, &(self.statics.len() as u32).to_be_bytes());
        put(&mut block, ADDRESS, &self.address);
        put(&mut block, VLAN_TOTAL, &(self.active_vlans() as u16).to_be_bytes());
        put(&mut block, EDITION, &[self.edition as u8]);
        put(&mut block, DEVICE, &[self.device as u8]);
        put(&mut block, PAIR_COUNT, &(self.pairs.len() as u32).to_be_bytes());
        for (object, start) in cells_of(self.device) {
            for (place, number) in self.settings[&object].iter().enumerate() {
                put(&mut block, start + 4 * place, &number.to_be_bytes());
            }
        }
        for (place, (id, row)) in self.vlans.iter().enumerate() {
            put_vlan(&mut block[VLAN_ROWS + VLAN_ROW * place..][..VLAN_ROW], *id, row);
        }
        for (place, (index, row)) in self.statics.iter().enumerate() {
            let octets: Vec<u8> = index.iter().map(|sub_id| *sub_id as u8).collect();
            let start = STATIC_ROWS + STATIC_ROW * place;
            put(&mut block, start, &octets);
            put(&mut block, start + 7, &[row.status as u8]);
            put(&mut block, start + 8, &row.allowed.to_be_bytes());
        }
        for (place, ([low, high], row)) in self.pairs.iter().enumerate() {
            let octets = [*low, *high, row.number, row.state].map(|number| number as u8);
            put(&mut block, PAIR_ROWS + PAIR_ROW * place, &octets);
        }
        block
    }

    /// The bridge that a block holds; none where the block is not a legal image.
    pub fn from_block(block: &[u8]) -> Option<Bridge> {
        if block.len() != BLOCK {
            return None;
        }
        let ports = number(block, PORTS);
        if !(1..=64).contains(&ports) {
            return None;
        }
        let edition = u32::from(block[EDITION]);
        if !EDITIONS.contains(&edition) {
            return None;
        }
        let device = u32::from(block[DEVICE]);
        if !DEVICES.contains(&device) {
            return None;
        }
        let mut settings = BTreeMap::new();
        for (object, start) in cells_of(device) {
            settings.insert(object, cells(block, object, start, ports, edition)?);
        }
        let bridge = Bridge {
            ports,
            edition,
            device,
            address: block[ADDRESS..ADDRESS + 6].try_into().unwrap(),
            settings,
            vlan_deletes: number(block, DELETES),
            vlans: vlan_rows(block, ports, device)?,
            statics: static_rows(block, ports, device)?,
            pairs: pair_rows(block, ports, device)?,
        };
        // VlanNumDeletes is the transparent device's.
        if device != TRANSPARENT && bridge.vlan_deletes != 0 {
            return None;
        }
        if bridge.timers().is_some_and(|timers| !timers_agree(timers)) {
            return None;
        }
        // Octets that hold nothing of this device must be 0, and the stored total (E5) must be that of the active rows: the
        // one image of this content shows both.
        (bridge.image() == block).then_some(bridge)
    }
}

fn put(block: &mut [u8], start: usize, octets: &[u8]) {
    block[start..start + octets.len()].copy_from_slice(octets);
}

fn put_vlan(octets: &mut [u8], id: u32, row: &VlanRow) {
    put(octets, 0, &(id as u16).to_be_bytes());
    put(octets, 2, &[if row.active { 1 } else { 2 }, row.name.len() as u8]);
    put(octets, 4, &row.name);
    put(octets, 36, &row.egress.to_be_bytes());
    put(octets, 44, &row.forbidden.to_be_bytes());
    put(octets, 52, &row.untagged.to_be_bytes());
}

fn number(block: &[u8], start: usize) -> u32 {
    u32::from_be_bytes(block[start..start + 4].try_into().unwrap())
}

/// An object's numbers; none where it does not take one of them.
fn cells(block: &[u8], object: Object, start: usize, ports: u32, edition: u32) -> Option<Vec<u32>> {
    let taken = |number: &u32| takes(object, edition, *number);
    (0..instances(object, ports)).map(|place| Some(number(block, start + 4 * place)).filter(taken)).collect()
}

/// How many rows a table says to have; none where the device has no room for so many.
fn row_count(block: &[u8], start: usize, table: GrowingTable, device: u32) -> Option<usize> {
    usize::try_from(number(block, start)).ok().filter(|count| *count <= table.room(device))
}

fn vlan_rows(block: &[u8], ports: u32, device: u32) -> Option<BTreeMap<u32, VlanRow>> {
    let mut rows = BTreeMap::new();
    let count = row_count(block, VLAN_COUNT, GrowingTable::Vlan, device)?;
    for octets in block[VLAN_ROWS..].chunks_exact(VLAN_ROW).take(count) {
        let id = u32::from(octets[0]) * 256 + u32::from(octets[1]);
        let ascending = rows.last_key_value().is_none_or(|(last, _)| *last < id);
        if !ascending || !can_have(Shape::Vlan, ports, &[id]) || !matches!(octets[2], 1 | 2) || octets[3] > 32 {
            return None;
        }
        let row = VlanRow {
            active: octets[2] == 1,
            name: octets[4..4 + usize::from(octets[3])].to_vec(),
            egress: port_set(octets, 36, ports)?,
            forbidden: port_set(octets, 44, ports)?,
            untagged: port_set(octets, 52, ports)?,
        };
        if row.egress & row.forbidden != 0 {
            return None;
        }
        rows.insert(id, row);
    }
    Some(rows)
}

fn static_rows(block: &[u8], ports: u32, device: u32) -> Option<BTreeMap<[u32; 7], StaticRow>> {
    let mut rows = BTreeMap::new();
    let count = row_count(block, STATIC_COUNT, GrowingTable::Static, device)?;
    for octets in block[STATIC_ROWS..].chunks_exact(STATIC_ROW).take(count) {
        let index: [u32; 7] = std::array::from_fn(|place| u32::from(octets[place]));
        let ascending = rows.last_key_value().is_none_or(|(last, _)| *last < index);
        if !ascending || !can_have(Shape::Static, ports, &index) || !matches!(octets[7], 3..=5) {
            return None;
        }
        rows.insert(index, StaticRow { allowed: port_set(octets, 8, ports)?, status: u32::from(octets[7]) });
    }
    Some(rows)
}

fn pair_rows(block: &[u8], ports: u32, device: u32) -> Option<BTreeMap<PairIndex, PairRow>> {
    let mut rows = BTreeMap::new();
    let count = row_count(block, PAIR_COUNT, GrowingTable::Pair, device)?;
    for octets in block[PAIR_ROWS..].chunks_exact(PAIR_ROW).take(count) {
        let [low, high, number, state] = std::array::from_fn(|place| u32::from(octets[place]));
        let ascending = rows.last_key_value().is_none_or(|(last, _)| *last < [low, high]);
        if !ascending || !can_have(Shape::Pair, ports, &[low, high]) || number > 15 || !matches!(state, 1 | 2) {
            return None;
        }
        rows.insert([low, high], PairRow { number, state });
    }
    Some(rows)
}

/// A set of ports 1..N.
fn port_set(octets: &[u8], start: usize, ports: u32) -> Option<PortSet> {
    let set = u64::from_be_bytes(octets[start..start + 8].try_into().unwrap());
    (set & !all_ports(ports) == 0).then_some(set)
}
