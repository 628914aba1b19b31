//! Set messages: those that should be accepted, those with a seeded fault, and bindings crowded on a few rows.

use super::contents::{
    agreeing_timers, any, port_octets, port_set, priority_beside_a_step, right, taken_number, timers, wrong_length,
    wrong_type, wrong_value,
};
use super::names::{any_name, foreign_object, impossible_index, object, possible_index, present_index};
use super::pairs::{half_a_pair, pair_group};
use super::start::all_pairs;
use crate::model::bridge::{Bridge, TIMERS};
use crate::model::message::{write_request, Binding, Content, Kind, Request, LONGEST, MOST_BINDINGS};
use crate::model::names::{type_of, Object, ObjectType, Shape, Syntax, SOURCE_ROUTING, TABLE};
use crate::random::Random;

pub fn bind(object: Object, index: &[u32], content: Content) -> Binding {
    Binding { name: type_of(object).name(index), content }
}

pub fn fits(bindings: &[Binding]) -> bool {
    let request = Request { kind: Kind::Set, id: 0, bindings: bindings.to_vec() };
    bindings.len() <= MOST_BINDINGS && write_request(&request).len() <= LONGEST
}

/// Adds a group where the message still has room for all of it and has none of its names.
pub fn add(bindings: &mut Vec<Binding>, group: Vec<Binding>) {
    let repeated = group.iter().any(|new| bindings.iter().any(|old| old.name == new.name));
    let before = bindings.len();
    bindings.extend(group);
    if repeated || !fits(bindings) {
        bindings.truncate(before);
    }
}

/// An object of the bridge that a set may write, of a kind that the bridge has.
fn writable(random: &mut Random, bridge: &Bridge, wanted: fn(&ObjectType) -> bool) -> &'static ObjectType {
    loop {
        let entry = object(random, bridge);
        if entry.writable() && wanted(entry) {
            return entry;
        }
    }
}

fn setting(random: &mut Random, bridge: &Bridge) -> Vec<Binding> {
    let entry = writable(random, bridge, |entry| entry.is_setting() && !TIMERS.contains(&entry.object));
    let index = possible_index(random, bridge, entry.shape);
    vec![bind(entry.object, &index, right(random, bridge, entry))]
}

/// One, two or three timers.
fn timer_group((timers, changed): ([u32; 3], [bool; 3])) -> Vec<Binding> {
    let bound = (0..TIMERS.len()).filter(|place| changed[*place]);
    bound.map(|place| bind(TIMERS[place], &[0], Content::Integer(timers[place] as i32))).collect()
}

/// Timers that may break a rule, among bindings that have no fault; now and then one of them has a fault of its own. A bridge
/// without timers gets bindings that have no fault.
pub fn timers_together(random: &mut Random, bridge: &Bridge) -> Vec<Binding> {
    let Some(old) = bridge.timers() else { return careful(random, bridge) };
    let mut group = timer_group(timers(random, old));
    if random.chance(30) {
        let entry = type_of(random.pick(&TIMERS));
        let content = match random.below(3) {
            0 => wrong_type(random, bridge, entry),
            1 => wrong_value(random, bridge, entry).unwrap_or_else(|| any(random)),
            _ => right(random, bridge, entry),
        };
        let index = if random.chance(30) { impossible_index(random, bridge, entry.shape) } else { vec![0] };
        group.insert(random.below(group.len() + 1), bind(entry.object, &index, content));
    }
    if random.chance(50) {
        let others: Vec<Binding> = careful(random, bridge).into_iter().filter(|binding| !is_timer(binding)).collect();
        group.extend(others.into_iter().take(3));
        random.shuffle(&mut group);
    }
    group
}

/// Priorities on the newer edition's steps and beside them, whatever the edition is.
pub fn priorities(random: &mut Random, bridge: &Bridge) -> Vec<Binding> {
    let mut group = Vec::new();
    for _ in 0..1 + random.below(3) {
        let entry = type_of(random.pick(&[Object::StpPriority, Object::StpPortPriority]));
        let index = possible_index(random, bridge, entry.shape);
        let on_a_step = taken_number(random, entry.object, 2);
        let number = match priority_beside_a_step(random, entry.object) {
            Some(number) if random.chance(40) => number,
            _ => on_a_step,
        };
        add(&mut group, vec![bind(entry.object, &index, Content::Integer(number as i32))]);
    }
    group
}

fn is_timer(binding: &Binding) -> bool {
    TIMERS.iter().any(|timer| type_of(*timer).name(&[0]) == binding.name)
}

/// Some columns of a VLAN row whose resulting Egress and Forbidden share no port, without its status.
fn vlan_columns(random: &mut Random, bridge: &Bridge, id: u32) -> Vec<Binding> {
    let old = bridge.vlans.get(&id).cloned().unwrap_or_default();
    let written = random.below(16);
    let mut forbidden = old.forbidden;
    let mut group = Vec::new();
    if written & 1 != 0 {
        let kept = if written & 2 != 0 { 0 } else { old.egress };
        forbidden = port_set(random, bridge.ports) & !kept;
        group.push(bind(Object::VlanForbidden, &[id], port_octets(random, forbidden)));
    }
    if written & 2 != 0 {
        let egress = port_set(random, bridge.ports) & !forbidden;
        group.push(bind(Object::VlanEgress, &[id], port_octets(random, egress)));
    }
    for (bit, column) in [(4, Object::VlanUntagged), (8, Object::VlanName)] {
        if written & bit != 0 {
            group.push(bind(column, &[id], right(random, bridge, type_of(column))));
        }
    }
    group
}

/// What one message may do to a VLAN row without a fault.
fn vlan_group(random: &mut Random, bridge: &Bridge) -> Vec<Binding> {
    let id = possible_index(random, bridge, Shape::Vlan)[0];
    let status = |number| bind(Object::VlanRowStatus, &[id], Content::Integer(number));
    let present = bridge.vlans.contains_key(&id);
    if random.chance(15) {
        return vec![status(6)];
    }
    let mut group = vlan_columns(random, bridge, id);
    if !present {
        group.push(status(random.pick(&[4, 5])));
    } else if random.chance(40) || group.is_empty() {
        group.push(status(random.pick(&[1, 2])));
    }
    group
}

/// What one message may do to a static row without a fault.
fn static_group(random: &mut Random, bridge: &Bridge) -> Vec<Binding> {
    let index = possible_index(random, bridge, Shape::Static);
    let present = bridge.get(Object::StaticStatus, &index).is_some();
    if random.chance(15) {
        return vec![bind(Object::StaticStatus, &index, Content::Integer(2))];
    }
    let ports = port_set(random, bridge.ports);
    let mut group = vec![bind(Object::StaticAllowedToGoTo, &index, port_octets(random, ports))];
    if !present || random.chance(50) {
        group.push(bind(Object::StaticStatus, &index, Content::Integer(random.pick(&[3, 4, 5]))));
    }
    if (present || group.len() == 2) && random.chance(20) {
        group.remove(0);
    }
    group
}

/// Bindings in any order that are free of faults, as long as the tables have room.
pub fn careful(random: &mut Random, bridge: &Bridge) -> Vec<Binding> {
    let mut bindings = Vec::new();
    // Timers come from one group, since two that fit what stands need not fit each other.
    if let (Some(old), true) = (bridge.timers(), random.chance(30)) {
        bindings = timer_group(agreeing_timers(random, old));
    }
    let routing = bridge.device == SOURCE_ROUTING;
    for _ in 0..random.below(10) {
        let group = match random.below(4) {
            0 => setting(random, bridge),
            _ if routing => pair_group(random, bridge),
            1 => static_group(random, bridge),
            _ => vlan_group(random, bridge),
        };
        add(&mut bindings, group);
    }
    random.shuffle(&mut bindings);
    bindings
}

/// A careful message with one binding, or two that do not go together, put in at any place.
pub fn faulty(random: &mut Random, bridge: &Bridge) -> Vec<Binding> {
    let mut bindings = careful(random, bridge);
    for fault in at_fault(random, bridge, &bindings) {
        bindings.insert(random.below(bindings.len() + 1), fault);
    }
    while !fits(&bindings) {
        bindings.remove(random.below(bindings.len()));
    }
    bindings
}

fn at_fault(random: &mut Random, bridge: &Bridge, bindings: &[Binding]) -> Vec<Binding> {
    let entry = writable(random, bridge, |_| true);
    let routing = bridge.device == SOURCE_ROUTING;
    let index = possible_index(random, bridge, entry.shape);
    let with = |content| vec![bind(entry.object, &index, content)];
    match random.below(10) {
        0 if !bindings.is_empty() => {
            let name = random.pick(bindings).name;
            let content = if random.chance(50) { random.pick(bindings).content } else { any(random) };
            vec![Binding { name, content }]
        }
        0 | 1 => vec![Binding { name: any_name(random, bridge), content: any(random) }],
        2 => vec![not_writable(random, bridge)],
        3 => with(wrong_type(random, bridge, entry)),
        4 | 9 if routing => half_a_pair(random, bridge),
        4 => {
            let entry = writable(random, bridge, |entry| matches!(entry.syntax, Syntax::Text | Syntax::Ports));
            let index = possible_index(random, bridge, entry.shape);
            wrong_length(random, entry).map(|content| bind(entry.object, &index, content)).into_iter().collect()
        }
        5 => with(wrong_value(random, bridge, entry).unwrap_or_else(|| any(random))),
        6 => {
            let index = impossible_index(random, bridge, entry.shape);
            vec![bind(entry.object, &index, right(random, bridge, entry))]
        }
        7 => with(right(random, bridge, entry)),
        8 => removed_and_written(random, bridge),
        _ => at_odds(random, bridge),
    }
}

/// A read-only object, or one of the other device.
fn not_writable(random: &mut Random, bridge: &Bridge) -> Binding {
    loop {
        let foreign = random.chance(40);
        let entry = if foreign { foreign_object(random, bridge) } else { object(random, bridge) };
        if foreign || !entry.writable() {
            let index = possible_index(random, bridge, entry.shape);
            return bind(entry.object, &index, right(random, bridge, entry));
        }
    }
}

/// The columns that make and remove rows of the bridge's growing tables.
fn statuses(bridge: &Bridge) -> &'static [Object] {
    match bridge.device {
        SOURCE_ROUTING => &[Object::PairBridgeState],
        _ => &[Object::VlanRowStatus, Object::StaticStatus],
    }
}

/// Another column of the rows that a status makes.
fn beside(status: Object) -> Object {
    match status {
        Object::VlanRowStatus => Object::VlanName,
        Object::StaticStatus => Object::StaticAllowedToGoTo,
        _ => Object::PairBridgeNum,
    }
}

/// A row that the request removes, mostly one that stands, and another column of it.
fn removed_and_written(random: &mut Random, bridge: &Bridge) -> Vec<Binding> {
    let status = random.pick(statuses(bridge));
    let any_row = random.chance(20);
    let index = some_row(random, bridge, status, any_row);
    let column = match status {
        Object::VlanRowStatus => writable(random, bridge, |entry| entry.shape == Shape::Vlan),
        _ => type_of(beside(status)),
    };
    vec![
        bind(status, &index, status_of(random, status, false)),
        bind(column.object, &index, right(random, bridge, column)),
    ]
}

/// Egress and Forbidden of one row, one or both of them written, Untagged, which is not judged, and any status.
fn at_odds(random: &mut Random, bridge: &Bridge) -> Vec<Binding> {
    let index = possible_index(random, bridge, Shape::Vlan);
    let mut group = Vec::new();
    for column in [Object::VlanEgress, Object::VlanForbidden, Object::VlanUntagged] {
        if random.chance(60) {
            group.push(bind(column, &index, right(random, bridge, type_of(column))));
        }
    }
    if random.chance(50) {
        group.push(bind(Object::VlanRowStatus, &index, Content::Integer(random.pick(&[1, 2, 3, 4, 4, 5, 6]))));
    }
    group
}

/// Many bindings on few rows and scalars, of any value: makes faults meet each other.
pub fn crowded(random: &mut Random, bridge: &Bridge) -> Vec<Binding> {
    let shapes: &[Shape] = match bridge.device {
        SOURCE_ROUTING => &[Shape::Pair, Shape::Pair, Shape::Port, Shape::Scalar],
        _ => &[Shape::Vlan, Shape::Vlan, Shape::Static, Shape::Port, Shape::Scalar, Shape::PortPriority],
    };
    let rows: Vec<(Shape, Vec<u32>)> = (0..1 + random.below(4))
        .map(|_| {
            let shape = random.pick(shapes);
            (shape, possible_index(random, bridge, shape))
        })
        .collect();
    let mut bindings = Vec::new();
    for _ in 0..1 + random.below(MOST_BINDINGS) {
        let (shape, index) = random.pick(&rows);
        let of_shape: Vec<&ObjectType> =
            TABLE.iter().filter(|entry| entry.shape == shape && entry.is_of(bridge.device)).collect();
        let entry = random.pick(&of_shape);
        let content = match random.below(20) {
            0 => any(random),
            1 => wrong_value(random, bridge, entry).unwrap_or_else(|| any(random)),
            2 => wrong_length(random, entry).unwrap_or_else(|| any(random)),
            _ => right(random, bridge, entry),
        };
        bindings.push(bind(entry.object, &index, content));
        if !fits(&bindings) {
            bindings.pop();
        }
    }
    bindings
}

/// Egress and Forbidden of a present row set, then exchanged in one message; now and then with a port in both.
pub fn exchange(random: &mut Random, bridge: &Bridge) -> Vec<Vec<Binding>> {
    let Some(index) = present_index(random, bridge, Shape::Vlan) else { return Vec::new() };
    let one = port_set(random, bridge.ports);
    let other = port_set(random, bridge.ports) & !one;
    let mut shared = 0;
    if random.chance(25) {
        shared = one & one.wrapping_neg();
    }
    let mut message = |egress, forbidden| {
        let mut both = vec![
            bind(Object::VlanEgress, &index, port_octets(random, egress)),
            bind(Object::VlanForbidden, &index, port_octets(random, forbidden)),
        ];
        random.shuffle(&mut both);
        both
    };
    vec![message(one, other), message(other | shared, one)]
}

/// Makes and removes rows of one table; where it is nearly full, so that one row less than it can have, as many or one more
/// would stand afterwards. A pair that is made has its bridge number, most of the time.
pub fn at_full(random: &mut Random, bridge: &Bridge) -> Vec<Binding> {
    let status = random.pick(statuses(bridge));
    let (column, table) = (beside(status), type_of(status).table().expect("a growing table"));
    let mut rows = bridge.rows(table);
    let wanted = bridge.room(table) + 1 - random.below(3);
    let columns = if status == Object::PairBridgeState { random.pick(&[100, 100, 80]) } else { 20 };
    let mut bindings = Vec::new();
    for _ in 0..1 + random.below(MOST_BINDINGS) {
        let making = random.chance(if rows < wanted { 80 } else { 30 });
        let index = some_row(random, bridge, status, making);
        let present = bridge.get(status, &index).is_some();
        rows = rows + usize::from(making && !present) - usize::from(!making && present && rows > 0);
        let mut group = vec![bind(status, &index, status_of(random, status, making))];
        if making && random.chance(columns) {
            group.push(bind(column, &index, right(random, bridge, type_of(column))));
        }
        add(&mut bindings, group);
    }
    random.shuffle(&mut bindings);
    bindings
}

/// A row to make, which may stand already, or one that stands to remove.
fn some_row(random: &mut Random, bridge: &Bridge, status: Object, making: bool) -> Vec<u32> {
    let shape = type_of(status).shape;
    let present = if making { None } else { present_index(random, bridge, shape) };
    present.unwrap_or_else(|| possible_index(random, bridge, shape))
}

/// A status that makes or removes a row.
fn status_of(random: &mut Random, status: Object, making: bool) -> Content {
    let numbers: &[i32] = match (status, making) {
        (Object::VlanRowStatus, true) => &[4, 5],
        (Object::VlanRowStatus, false) => &[6],
        (Object::PairBridgeState, true) => &[1, 2],
        (Object::PairBridgeState, false) => &[3],
        (_, true) => &[3, 4, 5],
        (_, false) => &[2],
    };
    Content::Integer(random.pick(numbers))
}

/// Messages that fill one of the bridge's tables, but for so many rows at most, as many bindings each as there can be.
pub fn filling(random: &mut Random, bridge: &Bridge, but: usize) -> Vec<Vec<Binding>> {
    let status = random.pick(statuses(bridge));
    let table = type_of(status).table().expect("a growing table");
    let missing = (bridge.room(table) - but).saturating_sub(bridge.rows(table));
    let mut made: Vec<Vec<Binding>> = absent_rows(random, bridge, status)
        .take(missing)
        .enumerate()
        .map(|(at, index)| match status {
            Object::VlanRowStatus => vec![bind(status, &index, Content::Integer(4 + at as i32 % 2))],
            Object::StaticStatus => vec![bind(status, &index, Content::Integer(3))],
            _ => vec![
                bind(status, &index, Content::Integer(1 + at as i32 % 2)),
                bind(beside(status), &index, Content::Integer(at as i32 % 16)),
            ],
        })
        .collect();
    random.shuffle(&mut made);
    made.concat().chunks(MOST_BINDINGS).map(<[Binding]>::to_vec).collect()
}

/// Rows that do not stand in the table of a status.
fn absent_rows(random: &mut Random, bridge: &Bridge, status: Object) -> Box<dyn Iterator<Item = Vec<u32>>> {
    let (ports, bridge) = (bridge.ports, bridge.clone());
    let rows: Box<dyn Iterator<Item = Vec<u32>>> = match status {
        Object::VlanRowStatus => {
            let first = random.pick(&[2, 1000, 4094 - 256]);
            Box::new((first..4095).map(|id| vec![id]))
        }
        Object::StaticStatus => {
            let index = move |place: u32| [0, spread(place), 7, 0, place / 256, place % 256, place % (ports + 1)];
            Box::new((0..).map(move |place| index(place).to_vec()))
        }
        _ => {
            let mut pairs = all_pairs(ports);
            random.shuffle(&mut pairs);
            Box::new(pairs.into_iter().map(|pair| pair.to_vec()))
        }
    };
    Box::new(rows.filter(move |index| bridge.get(status, index).is_none()))
}

/// Spreads the addresses of a filled table.
fn spread(place: u32) -> u32 {
    place.wrapping_mul(0x9E37_79B1) >> 24
}
