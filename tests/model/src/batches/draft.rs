//! Batches of messages that can be read: with nothing in common and room for all, or short of that.

use super::judge::{names_of, needed};
use crate::generate::contents::{any, right};
use crate::generate::names::{foreign_object, object, possible_index};
use crate::generate::sets::{at_full, careful, crowded, faulty, fits};
use crate::model::bridge::Bridge;
use crate::model::message::{Binding, MOST_BINDINGS};
use crate::model::names::{GrowingTable, Shape, TABLE};
use crate::model::terms::Named;
use crate::random::Random;
use std::collections::BTreeSet;
use std::slice::from_ref;

/// The bindings of each message.
pub type Draft = Vec<Vec<Binding>>;

/// Rows that a table may need over its room: none, one, or any number.
const ROOM: usize = 0;
const ONE_OVER: usize = 1;
const ANY: usize = usize::MAX / 2;

/// Few messages or many, the most that a batch can have and one more.
pub fn draft(random: &mut Random, bridge: &Bridge) -> Draft {
    let few = random.below(8);
    let count = random.pick(&[0, 1, 2, few, few, 2 + few, 2 + few, 20, 63, 64, 64, 65]);
    let mut draft: Draft = (0..count).map(|_| message(random, bridge)).collect();
    if random.chance(5) {
        return draft;
    }
    keep_apart(bridge, &mut draft);
    // Of the first table of the bridge and of the others.
    let rooms =
        [[ROOM, ROOM], [ROOM, ROOM], [ROOM, ROOM], [ONE_OVER, ROOM], [ROOM, ONE_OVER], [ANY, ONE_OVER], [ANY, ANY]];
    let [first, others] = random.pick(&rooms);
    for (table, over) in [(GrowingTable::Vlan, first), (GrowingTable::Static, others), (GrowingTable::Pair, first)] {
        forget_rows(random, bridge, &mut draft, (table, over));
    }
    for _ in 0..random.pick(&[0, 0, 0, 1, 2, 4]) {
        join_two(random, bridge, &mut draft);
    }
    draft
}

fn message(random: &mut Random, bridge: &Bridge) -> Vec<Binding> {
    match random.below(8) {
        0 => careful(random, bridge),
        1 => faulty(random, bridge),
        2 => crowded(random, bridge),
        3 | 4 => at_full(random, bridge),
        _ => scattered(random, bridge),
    }
}

/// Bindings of any object, most of them right; rows of the growing tables from all that there can be.
fn scattered(random: &mut Random, bridge: &Bridge) -> Vec<Binding> {
    let mut bindings = Vec::new();
    for _ in 0..random.below(MOST_BINDINGS + 1) {
        let entry = if random.chance(4) { foreign_object(random, bridge) } else { object(random, bridge) };
        let index = match entry.shape {
            Shape::Vlan => vec![1 + random.below(4094) as u32],
            Shape::Static => {
                random.octets(6).into_iter().map(u32::from).chain([random.within(0, bridge.ports)]).collect()
            }
            shape => possible_index(random, bridge, shape),
        };
        let content = if random.chance(85) { right(random, bridge, entry) } else { any(random) };
        bindings.push(Binding { name: entry.name(&index), content });
        if !fits(&bindings) {
            bindings.pop();
        }
    }
    bindings
}

/// Takes out the bindings that name what an earlier message names.
fn keep_apart(bridge: &Bridge, draft: &mut Draft) {
    let mut named = BTreeSet::new();
    for message in draft {
        message.retain(|binding| names_of(bridge, from_ref(binding)).is_disjoint(&named));
        named.extend(names_of(bridge, message));
    }
}

/// Takes out bindings of absent rows, so that a table needs no more than so many rows over its room.
fn forget_rows(random: &mut Random, bridge: &Bridge, draft: &mut Draft, (table, over): (GrowingTable, usize)) {
    let names: Vec<BTreeSet<Named>> = draft.iter().map(|message| names_of(bridge, message)).collect();
    let rows = names.iter().flatten().filter(|row| row.growing == Some(table) && !bridge.live(row));
    let mut absent: Vec<&Named> = rows.collect();
    random.shuffle(&mut absent);
    let excess = needed(bridge, &names, table).saturating_sub(bridge.room(table) + over);
    let forgotten: BTreeSet<Named> = absent.into_iter().take(excess).cloned().collect();
    for message in draft {
        message.retain(|binding| names_of(bridge, from_ref(binding)).is_disjoint(&forgotten));
    }
}

/// A message gets a binding that names what another one names, by the same column or by another.
fn join_two(random: &mut Random, bridge: &Bridge, draft: &mut Draft) {
    if draft.len() < 2 {
        return;
    }
    let (from, to) = (random.below(draft.len()), random.below(draft.len()));
    let named: Vec<Named> = names_of(bridge, &draft[from]).into_iter().collect();
    if from == to || named.is_empty() {
        return;
    }
    let wanted = random.pick(&named);
    let mut ways = Vec::new();
    for entry in &TABLE {
        let content = if random.chance(70) { right(random, bridge, entry) } else { any(random) };
        let binding = Binding { name: entry.name(&wanted.index), content };
        if names_of(bridge, from_ref(&binding)).contains(&wanted) {
            ways.push(binding);
        }
    }
    let message = &mut draft[to];
    message.insert(random.below(message.len() + 1), random.pick(&ways));
    while !fits(message) {
        message.remove(random.below(message.len()));
    }
}
