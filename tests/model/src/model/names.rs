//! Object identifiers, the table of object types, and the indexes that their instances have.

/// The name that all objects stand under.
pub const BRIDGE: [u32; 7] = [1, 3, 6, 1, 2, 1, 17];

#[derive(Clone, Copy, PartialEq, Eq, PartialOrd, Ord, Debug)]
pub enum Object {
    BridgeAddress,
    NumPorts,
    Type,
    Port,
    IfIndex,
    StpPriority,
    BridgeMaxAge,
    BridgeHelloTime,
    BridgeForwardDelay,
    StpPort,
    StpPortPriority,
    StpPortEnable,
    StpPortPathCost,
    LargestFrame,
    PairLowPort,
    PairHighPort,
    PairBridgeNum,
    PairBridgeState,
    AgingTime,
    StaticAddress,
    StaticReceivePort,
    StaticAllowedToGoTo,
    StaticStatus,
    DefaultUserPriority,
    NumTrafficClasses,
    RegenUserPriority,
    TrafficClass,
    VlanVersionNumber,
    MaxVlanId,
    MaxSupportedVlans,
    NumVlans,
    VlanNumDeletes,
    VlanName,
    VlanEgress,
    VlanForbidden,
    VlanUntagged,
    VlanRowStatus,
    Pvid,
    AcceptableFrameTypes,
    IngressFiltering,
}

/// What the sub-ids after an object type's prefix are.
#[derive(Clone, Copy, PartialEq, Eq, Debug)]
pub enum Shape {
    Scalar,
    Port,
    PortPriority,
    Vlan,
    Static,
    Pair,
}

/// Type and range of an object's contents.
#[derive(Clone, Copy, PartialEq, Eq, Debug)]
pub enum Syntax {
    Integer(u32, u32),
    Unsigned(u32, u32),
    Counter,
    Address,
    Text,
    Ports,
    RowStatus,
    StaticStatus,
    /// An integer that is one of `LARGEST_FRAMES`.
    Frame,
    /// An integer: enabled, disabled, or invalid.
    PairState,
}

/// A table whose rows come and go.
#[derive(Clone, Copy, PartialEq, Eq, PartialOrd, Ord, Debug)]
pub enum GrowingTable {
    Vlan,
    Static,
    Pair,
}

/// In the order in which a check of a batch judges them.
pub const GROWING: [GrowingTable; 3] = [GrowingTable::Vlan, GrowingTable::Static, GrowingTable::Pair];

impl GrowingTable {
    /// Rows that the table can have on a device; none where the device has no such table.
    pub fn room(self, device: u32) -> usize {
        match (self, device) {
            (GrowingTable::Pair, SOURCE_ROUTING) => MOST_PAIRS,
            (GrowingTable::Vlan | GrowingTable::Static, TRANSPARENT) => MOST_ROWS,
            _ => 0,
        }
    }
}

/// Rows that the VLAN table and the static table can have.
pub const MOST_ROWS: usize = 256;

/// Port pairs that a source-routing bridge can have.
pub const MOST_PAIRS: usize = 64;

#[derive(Clone, Copy, PartialEq, Eq, Debug)]
pub enum Access {
    ReadOnly,
    Writable,
}

#[derive(Debug)]
pub struct ObjectType {
    pub object: Object,
    /// The sub-ids after those of `BRIDGE`; a scalar's last 0 is its index.
    pub prefix: &'static [u32],
    pub shape: Shape,
    pub syntax: Syntax,
    pub access: Access,
}

const fn row(object: Object, prefix: &'static [u32], shape: Shape, syntax: Syntax, access: Access) -> ObjectType {
    ObjectType { object, prefix, shape, syntax, access }
}

use Access::{ReadOnly, Writable};
use Shape::{PortPriority, Scalar};
use Syntax::{Integer, Unsigned};

/// All object types of both devices, ascending by name. A read-only number has the range of what it can be.
pub const TABLE: [ObjectType; 40] = [
    row(Object::BridgeAddress, &[1, 1], Scalar, Syntax::Address, ReadOnly),
    row(Object::NumPorts, &[1, 2], Scalar, Integer(1, 64), ReadOnly),
    row(Object::Type, &[1, 3], Scalar, Integer(2, 3), ReadOnly),
    row(Object::Port, &[1, 4, 1, 1], Shape::Port, Integer(1, 64), ReadOnly),
    row(Object::IfIndex, &[1, 4, 1, 2], Shape::Port, Integer(1, 64), ReadOnly),
    row(Object::StpPriority, &[2, 2], Scalar, Integer(0, 65535), Writable),
    row(Object::BridgeMaxAge, &[2, 12], Scalar, Integer(600, 4000), Writable),
    row(Object::BridgeHelloTime, &[2, 13], Scalar, Integer(100, 1000), Writable),
    row(Object::BridgeForwardDelay, &[2, 14], Scalar, Integer(400, 3000), Writable),
    row(Object::StpPort, &[2, 15, 1, 1], Shape::Port, Integer(1, 64), ReadOnly),
    row(Object::StpPortPriority, &[2, 15, 1, 2], Shape::Port, Integer(0, 255), Writable),
    row(Object::StpPortEnable, &[2, 15, 1, 4], Shape::Port, Integer(1, 2), Writable),
    row(Object::StpPortPathCost, &[2, 15, 1, 5], Shape::Port, Integer(1, 65535), Writable),
    row(Object::LargestFrame, &[3, 1, 1, 6], Shape::Port, Syntax::Frame, Writable),
    row(Object::PairLowPort, &[3, 5, 1, 1], Shape::Pair, Integer(1, 64), ReadOnly),
    row(Object::PairHighPort, &[3, 5, 1, 2], Shape::Pair, Integer(1, 64), ReadOnly),
    row(Object::PairBridgeNum, &[3, 5, 1, 3], Shape::Pair, Integer(0, 15), Writable),
    row(Object::PairBridgeState, &[3, 5, 1, 4], Shape::Pair, Syntax::PairState, Writable),
    row(Object::AgingTime, &[4, 2], Scalar, Integer(10, 1_000_000), Writable),
    row(Object::StaticAddress, &[5, 1, 1, 1], Shape::Static, Syntax::Address, ReadOnly),
    row(Object::StaticReceivePort, &[5, 1, 1, 2], Shape::Static, Integer(0, 64), ReadOnly),
    row(Object::StaticAllowedToGoTo, &[5, 1, 1, 3], Shape::Static, Syntax::Ports, Writable),
    row(Object::StaticStatus, &[5, 1, 1, 4], Shape::Static, Syntax::StaticStatus, Writable),
    row(Object::DefaultUserPriority, &[6, 1, 2, 1, 1, 1], Shape::Port, Integer(0, 7), Writable),
    row(Object::NumTrafficClasses, &[6, 1, 2, 1, 1, 2], Shape::Port, Integer(8, 8), ReadOnly),
    row(Object::RegenUserPriority, &[6, 1, 2, 2, 1, 2], PortPriority, Integer(0, 7), Writable),
    row(Object::TrafficClass, &[6, 1, 2, 3, 1, 2], PortPriority, Integer(0, 7), Writable),
    row(Object::VlanVersionNumber, &[7, 1, 1, 1], Scalar, Integer(1, 1), ReadOnly),
    row(Object::MaxVlanId, &[7, 1, 1, 2], Scalar, Integer(4094, 4094), ReadOnly),
    row(Object::MaxSupportedVlans, &[7, 1, 1, 3], Scalar, Unsigned(256, 256), ReadOnly),
    row(Object::NumVlans, &[7, 1, 1, 4], Scalar, Unsigned(0, 256), ReadOnly),
    row(Object::VlanNumDeletes, &[7, 1, 4, 1], Scalar, Syntax::Counter, ReadOnly),
    row(Object::VlanName, &[7, 1, 4, 3, 1, 1], Shape::Vlan, Syntax::Text, Writable),
    row(Object::VlanEgress, &[7, 1, 4, 3, 1, 2], Shape::Vlan, Syntax::Ports, Writable),
    row(Object::VlanForbidden, &[7, 1, 4, 3, 1, 3], Shape::Vlan, Syntax::Ports, Writable),
    row(Object::VlanUntagged, &[7, 1, 4, 3, 1, 4], Shape::Vlan, Syntax::Ports, Writable),
    row(Object::VlanRowStatus, &[7, 1, 4, 3, 1, 5], Shape::Vlan, Syntax::RowStatus, Writable),
    row(Object::Pvid, &[7, 1, 4, 5, 1, 1], Shape::Port, Unsigned(1, 4094), Writable),
    row(Object::AcceptableFrameTypes, &[7, 1, 4, 5, 1, 2], Shape::Port, Integer(1, 2), Writable),
    row(Object::IngressFiltering, &[7, 1, 4, 5, 1, 3], Shape::Port, Integer(1, 2), Writable),
];

/// What a port's largest frame can be: the 64 numbers that document 004 lists under dot1dSrPortLargestFrame.
pub const LARGEST_FRAMES: [u32; 64] = [
    516, 635, 754, 873, 993, 1112, 1231, 1350, 1470, 1542, 1615, 1688, 1761, 1833, 1906, 1979, 2052, 2345, 2638, 2932,
    3225, 3518, 3812, 4105, 4399, 4865, 5331, 5798, 6264, 6730, 7197, 7663, 8130, 8539, 8949, 9358, 9768, 10178, 10587,
    10997, 11407, 12199, 12992, 13785, 14578, 15370, 16163, 16956, 17749, 20730, 23711, 26693, 29674, 32655, 35637,
    38618, 41600, 44591, 47583, 50575, 53567, 56559, 59551, 65535,
];

/// The devices that a bridge can be (E12).
pub const DEVICES: std::ops::RangeInclusive<u32> = 1..=2;
pub const TRANSPARENT: u32 = 1;
pub const SOURCE_ROUTING: u32 = 2;

impl ObjectType {
    pub fn writable(&self) -> bool {
        self.access == Writable
    }

    /// Whether a device has this object: the source-routing device has those under 1 and those of its own, and no others.
    pub fn is_of(&self, device: u32) -> bool {
        match self.prefix[0] {
            1 => true,
            3 => device == SOURCE_ROUTING,
            _ => device == TRANSPARENT,
        }
    }

    /// The growing table that this object is a column of: its rows come and go.
    pub fn table(&self) -> Option<GrowingTable> {
        match self.shape {
            Shape::Vlan => Some(GrowingTable::Vlan),
            Shape::Static => Some(GrowingTable::Static),
            Shape::Pair => Some(GrowingTable::Pair),
            _ => None,
        }
    }

    pub fn grows(&self) -> bool {
        self.table().is_some()
    }

    /// One stored number for each instance, and the instances always stand.
    pub fn is_setting(&self) -> bool {
        self.writable() && !self.grows()
    }

    /// The whole name of an instance.
    pub fn name(&self, index: &[u32]) -> Vec<u32> {
        [&BRIDGE[..], self.prefix, index].concat()
    }
}

/// The editions of the priority rule (E4).
pub const EDITIONS: std::ops::RangeInclusive<u32> = 1..=2;

/// Whether an object takes a number: its range, in edition 2 the steps of priorities, and the frames that there are.
pub fn takes(object: Object, edition: u32, number: u32) -> bool {
    let (low, high) = match type_of(object).syntax {
        Syntax::Integer(low, high) | Syntax::Unsigned(low, high) => (low, high),
        Syntax::Frame => return LARGEST_FRAMES.contains(&number),
        _ => unreachable!("{object:?} has no numbers"),
    };
    match (edition, object) {
        (2, Object::StpPriority) => number <= 61440 && number % 4096 == 0,
        (2, Object::StpPortPriority) => number <= 240 && number % 16 == 0,
        _ => (low..=high).contains(&number),
    }
}

/// The object type of an object.
pub fn type_of(object: Object) -> &'static ObjectType {
    &TABLE[object as usize]
}

/// The object type that is a prefix of the name, and the rest of the name, whatever the device.
pub fn split(name: &[u32]) -> Option<(&'static ObjectType, &[u32])> {
    let below = name.strip_prefix(&BRIDGE)?;
    // No prefix is a prefix of another one, so only the last that is not above the name can be one of the name.
    let above = TABLE.partition_point(|entry| entry.prefix <= below);
    let candidate = TABLE[..above].last()?;
    Some((candidate, below.strip_prefix(candidate.prefix)?))
}

/// The same among the object types that a device has.
pub fn split_of(device: u32, name: &[u32]) -> Option<(&'static ObjectType, &[u32])> {
    split(name).filter(|(found, _)| found.is_of(device))
}

/// Whether a bridge of so many ports can have an instance or a row of this index.
pub fn can_have(shape: Shape, ports: u32, index: &[u32]) -> bool {
    match (shape, index) {
        (Shape::Scalar, [0]) => true,
        (Shape::Port, [port]) => (1..=ports).contains(port),
        (Shape::PortPriority, [port, priority]) => (1..=ports).contains(port) && *priority <= 7,
        (Shape::Vlan, [id]) => (1..=4094).contains(id),
        (Shape::Pair, [low, high]) => 1 <= *low && low < high && *high <= ports,
        (Shape::Static, [address @ .., receive_port]) => {
            address.len() == 6 && address.iter().all(|octet| *octet <= 255) && *receive_port <= ports
        }
        _ => false,
    }
}
