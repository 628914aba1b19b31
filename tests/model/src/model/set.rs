//! A set message: each binding's first fault, and what an accepted set changes.

use super::bridge::{
    all_ports, place, timers_agree, Bridge, PairIndex, PairRow, PortSet, StaticIndex, StaticRow, VlanRow, TIMERS,
};
use super::message::{Binding, Content};
use super::names::{can_have, split_of, takes, GrowingTable, Object, ObjectType, Shape, Syntax, GROWING};
use std::collections::BTreeMap;

/// The VLAN whose made row has all ports in Untagged.
const DEFAULT_VLAN: u32 = 1;

/// The state that removes a port pair.
const INVALID: u32 = 3;

pub type Fault = u8;
pub const GEN_ERR: Fault = 5;
pub const WRONG_TYPE: Fault = 7;
pub const WRONG_LENGTH: Fault = 8;
pub const WRONG_VALUE: Fault = 10;
pub const NO_CREATION: Fault = 11;
pub const INCONSISTENT_VALUE: Fault = 12;
pub const RESOURCE_UNAVAILABLE: Fault = 13;
pub const NOT_WRITABLE: Fault = 17;
pub const INCONSISTENT_NAME: Fault = 18;

/// What a binding writes, once its type, length and value are right.
#[derive(Clone, PartialEq, Eq, Debug)]
enum Value {
    Number(u32),
    Text(Vec<u8>),
    Ports(PortSet),
}

/// A row of a growing table.
#[derive(Clone, Copy, PartialEq, Eq, PartialOrd, Ord, Debug)]
enum Row {
    Vlan(u32),
    Static(StaticIndex),
    Pair(PairIndex),
}

/// A binding that is free of the faults 5, 17, 7, 8, 10 and 11.
struct Write {
    object: Object,
    index: Vec<u32>,
    row: Option<Row>,
    value: Value,
}

/// What the clean bindings of a request do to one row of a growing table.
#[derive(Default)]
struct RowPlan {
    present: bool,
    status: Option<u32>,
    shares_port: bool,
    /// A port pair whose bridge number is bound.
    numbered: bool,
}

struct Plan {
    rows: BTreeMap<Row, RowPlan>,
    overfull: Vec<GrowingTable>,
    /// The three timers as all clean bindings together leave them break a rule (E6).
    timers_at_odds: bool,
}

impl Bridge {
    /// Status and index of the answer; the bridge changes only where both are 0.
    pub fn set(&mut self, bindings: &[Binding]) -> (Fault, u8) {
        let judged: Vec<Result<Write, Fault>> = (0..bindings.len()).map(|at| self.judge_alone(bindings, at)).collect();
        let clean: Vec<&Write> = judged.iter().flatten().collect();
        let plan = self.plan(&clean);
        for (at, write) in judged.iter().enumerate() {
            let fault = match write {
                Err(fault) => Some(*fault),
                Ok(write) => plan.fault_of(write),
            };
            if let Some(fault) = fault {
                return (fault, at as u8 + 1);
            }
        }
        self.apply(&clean, &plan);
        (0, 0)
    }

    /// The faults that a binding has whatever the request does to its row.
    fn judge_alone(&self, bindings: &[Binding], at: usize) -> Result<Write, Fault> {
        let Binding { name, content } = &bindings[at];
        if bindings[..at].iter().any(|earlier| earlier.name == *name) {
            return Err(GEN_ERR);
        }
        let (found, index) = split_of(self.device, name).filter(|(found, _)| found.writable()).ok_or(NOT_WRITABLE)?;
        let value = self.judge_value(found, content)?;
        if !can_have(found.shape, self.ports, index) {
            return Err(NO_CREATION);
        }
        let row = match found.shape {
            Shape::Vlan => Some(Row::Vlan(index[0])),
            Shape::Static => index.try_into().ok().map(Row::Static),
            Shape::Pair => index.try_into().ok().map(Row::Pair),
            _ => None,
        };
        Ok(Write { object: found.object, index: index.to_vec(), row, value })
    }

    fn judge_number(&self, object: Object, number: i64) -> Result<Value, Fault> {
        let number = u32::try_from(number).map_err(|_| WRONG_VALUE)?;
        if takes(object, self.edition, number) {
            Ok(Value::Number(number))
        } else {
            Err(WRONG_VALUE)
        }
    }

    /// Type, then length, then value.
    fn judge_value(&self, found: &ObjectType, content: &Content) -> Result<Value, Fault> {
        match (found.syntax, content) {
            (Syntax::Integer(..) | Syntax::Frame, Content::Integer(number)) => {
                self.judge_number(found.object, (*number).into())
            }
            (Syntax::Unsigned(..), Content::Unsigned(number)) => self.judge_number(found.object, (*number).into()),
            (Syntax::RowStatus, Content::Integer(3)) => Err(WRONG_VALUE),
            (Syntax::RowStatus, Content::Integer(status)) => number_within((*status).into(), 1, 6),
            (Syntax::StaticStatus, Content::Integer(status)) => number_within((*status).into(), 2, 5),
            (Syntax::PairState, Content::Integer(state)) => number_within((*state).into(), 1, 3),
            (Syntax::Text, Content::String(octets)) if octets.len() > 32 => Err(WRONG_LENGTH),
            (Syntax::Text, Content::String(octets)) => Ok(Value::Text(octets.clone())),
            (Syntax::Ports, Content::String(octets)) => self.judge_ports(octets),
            _ => Err(WRONG_TYPE),
        }
    }

    fn judge_ports(&self, octets: &[u8]) -> Result<Value, Fault> {
        if octets.len() > 8 {
            return Err(WRONG_LENGTH);
        }
        let mut eight = [0; 8];
        eight[..octets.len()].copy_from_slice(octets);
        let ports = u64::from_be_bytes(eight);
        if ports & !all_ports(self.ports) != 0 {
            return Err(WRONG_VALUE);
        }
        Ok(Value::Ports(ports))
    }

    /// What the clean bindings make of the rows that they name, against the bridge before.
    fn plan(&self, clean: &[&Write]) -> Plan {
        let mut rows: BTreeMap<Row, RowPlan> = BTreeMap::new();
        for write in clean {
            let Some(row) = write.row else { continue };
            let plan = rows.entry(row).or_default();
            plan.present = self.present(row);
            if let (true, Value::Number(status)) = (is_status(write.object), &write.value) {
                plan.status = Some(*status);
            }
            plan.numbered |= write.object == Object::PairBridgeNum;
            if let Row::Vlan(id) = row {
                plan.shares_port = self.resulting_row_shares(id, clean);
            }
        }
        let overfull = GROWING.into_iter().filter(|table| self.overfull(*table, &rows)).collect();
        let timers_at_odds = self.resulting_timers(clean).is_some_and(|timers| !timers_agree(timers));
        Plan { rows, overfull, timers_at_odds }
    }

    /// Live + made - removed would pass the rows that one table can have.
    fn overfull(&self, table: GrowingTable, rows: &BTreeMap<Row, RowPlan>) -> bool {
        let of_table = || rows.iter().filter(|(row, _)| row.table() == table);
        let made = of_table().filter(|(row, plan)| plan.made(row)).count();
        let removed = of_table().filter(|(row, plan)| plan.removed(row)).count();
        self.rows(table) + made - removed > self.room(table)
    }

    /// The timers as all clean bindings together leave them; none where the device has no timers.
    fn resulting_timers(&self, clean: &[&Write]) -> Option<[u32; 3]> {
        let mut timers = self.timers()?;
        for (timer, number) in TIMERS.iter().zip(&mut timers) {
            let written = clean.iter().find(|write| write.object == *timer);
            *number = written.map_or(*number, |write| write.value.number());
        }
        Some(timers)
    }

    fn present(&self, row: Row) -> bool {
        match row {
            Row::Vlan(id) => self.vlans.contains_key(&id),
            Row::Static(index) => self.statics.contains_key(&index),
            Row::Pair(index) => self.pairs.contains_key(&index),
        }
    }

    /// The row as all clean bindings together leave it: Egress is judged against the resulting Forbidden.
    fn resulting_row_shares(&self, id: u32, clean: &[&Write]) -> bool {
        let before = self.vlans.get(&id);
        let written = |column: Object| {
            let found = clean.iter().find(|write| write.object == column && write.row == Some(Row::Vlan(id)));
            found.map(|write| write.value.ports())
        };
        let egress = written(Object::VlanEgress).or(before.map(|row| row.egress)).unwrap_or(0);
        let forbidden = written(Object::VlanForbidden).or(before.map(|row| row.forbidden)).unwrap_or(0);
        egress & forbidden != 0
    }

    fn apply(&mut self, clean: &[&Write], plan: &Plan) {
        let named = plan.rows.keys().filter_map(|row| if let Row::Vlan(id) = row { Some(*id) } else { None });
        let active_before: Vec<u32> = named.filter(|id| self.active(*id)).collect();
        // Rows are made first, so that a column's binding may come before the one that makes its row.
        for (row, _) in plan.rows.iter().filter(|(row, plan)| plan.made(row)) {
            self.make(*row);
        }
        for write in clean {
            self.write(write);
        }
        let ended = active_before.iter().filter(|id| !self.active(**id)).count();
        self.vlan_deletes = self.vlan_deletes.wrapping_add(ended as u32);
    }

    fn active(&self, id: u32) -> bool {
        self.vlans.get(&id).is_some_and(|row| row.active)
    }

    fn make(&mut self, row: Row) {
        match row {
            Row::Vlan(id) => {
                // E8: the default VLAN starts with every port untagged, any other row with none.
                let untagged = if id == DEFAULT_VLAN { all_ports(self.ports) } else { 0 };
                self.vlans.insert(id, VlanRow { untagged, ..VlanRow::default() });
            }
            Row::Static(index) => {
                self.statics.insert(index, StaticRow { allowed: all_ports(self.ports), status: 3 });
            }
            Row::Pair(index) => {
                self.pairs.insert(index, PairRow { number: 0, state: 1 });
            }
        }
    }

    fn write(&mut self, write: &Write) {
        match write.row {
            None => {
                let setting = self.settings.get_mut(&write.object).expect("an instance that always stands");
                setting[place(&write.index)] = write.value.number();
            }
            Some(Row::Vlan(id)) => self.write_vlan(id, write),
            Some(Row::Static(index)) => self.write_static(index, write),
            Some(Row::Pair(index)) => self.write_pair(index, write),
        }
    }

    fn write_vlan(&mut self, id: u32, write: &Write) {
        if write.object == Object::VlanRowStatus && write.value.number() == 6 {
            self.vlans.remove(&id);
            return;
        }
        let row = self.vlans.get_mut(&id).expect("present or made");
        match (write.object, &write.value) {
            (Object::VlanName, Value::Text(name)) => row.name = name.clone(),
            (Object::VlanEgress, value) => row.egress = value.ports(),
            (Object::VlanForbidden, value) => row.forbidden = value.ports(),
            (Object::VlanUntagged, value) => row.untagged = value.ports(),
            (_, value) => row.active = matches!(value.number(), 1 | 4),
        }
    }

    fn write_static(&mut self, index: StaticIndex, write: &Write) {
        if write.object == Object::StaticStatus && write.value.number() == 2 {
            self.statics.remove(&index);
            return;
        }
        let row = self.statics.get_mut(&index).expect("present or made");
        match &write.value {
            Value::Ports(ports) => row.allowed = *ports,
            value => row.status = value.number(),
        }
    }

    fn write_pair(&mut self, index: PairIndex, write: &Write) {
        let number = write.value.number();
        if write.object == Object::PairBridgeState && number == INVALID {
            self.pairs.remove(&index);
            return;
        }
        let row = self.pairs.get_mut(&index).expect("present or made");
        match write.object {
            Object::PairBridgeNum => row.number = number,
            _ => row.state = number,
        }
    }
}

impl Row {
    fn table(&self) -> GrowingTable {
        match self {
            Row::Vlan(_) => GrowingTable::Vlan,
            Row::Static(_) => GrowingTable::Static,
            Row::Pair(_) => GrowingTable::Pair,
        }
    }
}

impl Value {
    fn number(&self) -> u32 {
        match self {
            Value::Number(number) => *number,
            _ => unreachable!("{self:?} is no number"),
        }
    }

    fn ports(&self) -> PortSet {
        match self {
            Value::Ports(ports) => *ports,
            _ => unreachable!("{self:?} is no port set"),
        }
    }
}

impl RowPlan {
    /// The request makes this row, which is absent before.
    fn made(&self, row: &Row) -> bool {
        let making = match row {
            Row::Vlan(_) => matches!(self.status, Some(4 | 5)),
            Row::Static(_) => matches!(self.status, Some(3..=5)),
            Row::Pair(_) => matches!(self.status, Some(1 | 2)),
        };
        making && !self.present
    }

    /// The request removes this row, which is present before.
    fn removed(&self, row: &Row) -> bool {
        let removing = match row {
            Row::Vlan(_) => self.status == Some(6),
            Row::Static(_) => self.status == Some(2),
            Row::Pair(_) => self.status == Some(INVALID),
        };
        removing && self.present
    }
}

impl Plan {
    /// The faults 18, 12 and 13 of a clean binding.
    fn fault_of(&self, write: &Write) -> Option<Fault> {
        if TIMERS.contains(&write.object) {
            return self.timers_at_odds.then_some(INCONSISTENT_VALUE);
        }
        let row = write.row?;
        let plan = &self.rows[&row];
        if is_status(write.object) {
            return self.fault_of_status(&row, plan, write.value.number());
        }
        if !plan.present && !plan.made(&row) {
            return Some(INCONSISTENT_NAME);
        }
        let ports_at_odds = matches!(write.object, Object::VlanEgress | Object::VlanForbidden) && plan.shares_port;
        (plan.removed(&row) || ports_at_odds).then_some(INCONSISTENT_VALUE)
    }

    fn fault_of_status(&self, row: &Row, plan: &RowPlan, status: u32) -> Option<Fault> {
        let at_odds = match (row, status) {
            (Row::Vlan(_), 4 | 5) => plan.present,
            (Row::Vlan(_), 1 | 2) => !plan.present,
            // A pair that is made needs its bridge number; without it the pair counts as made all the same.
            (Row::Pair(_), _) => plan.made(row) && !plan.numbered,
            _ => false,
        };
        if at_odds {
            return Some(INCONSISTENT_VALUE);
        }
        (plan.made(row) && self.overfull.contains(&row.table())).then_some(RESOURCE_UNAVAILABLE)
    }
}

fn is_status(object: Object) -> bool {
    matches!(object, Object::VlanRowStatus | Object::StaticStatus | Object::PairBridgeState)
}

fn number_within(number: i64, low: u32, high: u32) -> Result<Value, Fault> {
    match u32::try_from(number) {
        Ok(number) if (low..=high).contains(&number) => Ok(Value::Number(number)),
        _ => Err(WRONG_VALUE),
    }
}
