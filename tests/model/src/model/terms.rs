//! The terms of demand 3: what a set message names, and which two messages may be played in either order.

use super::bridge::{Bridge, TIMERS};
use super::message::Binding;
use super::names::{can_have, split_of, type_of, GrowingTable, Object, Shape, GROWING};
use std::collections::BTreeSet;

/// A row, by its table (the entry that its columns stand under) and its index; or a scalar, by prefix and last 0. The
/// three timers are one scalar (E6), named by the prefix of the first.
#[derive(Clone, PartialEq, Eq, PartialOrd, Ord, Debug)]
pub struct Named {
    pub table: &'static [u32],
    pub index: Vec<u32>,
    pub growing: Option<GrowingTable>,
}

/// All rows and scalars of a bridge that the bindings name, those at fault too.
pub fn named_by(bridge: &Bridge, bindings: &[Binding]) -> BTreeSet<Named> {
    bindings.iter().filter_map(|binding| named(bridge, &binding.name)).collect()
}

fn named(bridge: &Bridge, name: &[u32]) -> Option<Named> {
    let (found, index) = split_of(bridge.device, name)?;
    if !can_have(found.shape, bridge.ports, index) {
        return None;
    }
    let table = match found.shape {
        Shape::Scalar if TIMERS.contains(&found.object) => type_of(TIMERS[0]).prefix,
        Shape::Scalar => found.prefix,
        _ => &found.prefix[..found.prefix.len() - 1],
    };
    Some(Named { table, index: index.to_vec(), growing: found.table() })
}

impl Bridge {
    /// The premise of demand 3 for two readable set messages: nothing named in common, and room for all rows they name.
    pub fn may_cross(&self, a: &[Binding], b: &[Binding]) -> bool {
        let (a, b) = (named_by(self, a), named_by(self, b));
        let all: BTreeSet<&Named> = a.union(&b).collect();
        let absent = |table| all.iter().filter(|row| row.growing == Some(table) && !self.live(row)).count();
        a.is_disjoint(&b) && GROWING.iter().all(|table| self.rows(*table) + absent(*table) <= self.room(*table))
    }

    /// Whether a row stands in the bridge; rows of tables that do not grow always do.
    pub fn live(&self, row: &Named) -> bool {
        let column = match row.growing {
            Some(GrowingTable::Vlan) => Object::VlanRowStatus,
            Some(GrowingTable::Static) => Object::StaticStatus,
            Some(GrowingTable::Pair) => Object::PairBridgeState,
            None => return true,
        };
        self.get(column, &row.index).is_some()
    }
}
