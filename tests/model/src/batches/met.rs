//! What the compared batches had, so that a run that never met something is seen.

use super::compare::messages_of;
use super::judge::{names_of, needed, read_all, take_frame, MOST_MESSAGES};
use super::Batch;
use crate::model::bridge::Bridge;
use crate::model::console::{HEADER, HEADER_WRONG, LENGTH_OVER, MARK};
use crate::model::message::{read, Binding, HEAD_WRONG, LONGEST};
use crate::model::names::{split, GrowingTable, SOURCE_ROUTING};
use crate::model::terms::Named;
use std::collections::{BTreeMap, BTreeSet};

/// What must have been met at least once.
const REQUIRED: [&str; 53] = [
    "accepted",
    "accepted: no message",
    "accepted: 64 messages",
    "accepted: a message without bindings",
    "accepted: a message that names a row twice",
    "accepted: a message that is answered with a fault",
    "accepted: the block changes",
    "accepted: every VLAN row taken",
    "accepted: every static row taken",
    "accepted: every pair taken",
    "accepted: on a source-routing bridge",
    "accepted: a name of the other device twice",
    "accepted: a message of 1472 octets",
    "pair",
    "pair: of timers alone",
    "pair: by other columns",
    "pair: by a read-only name",
    "pair: by a binding at fault alone",
    "pair: another has a lower second number",
    "pair: a table is short too",
    "pair: by a row of ports",
    "pair: the order tells",
    "VLAN table short",
    "VLAN table short by one row",
    "VLAN table short, static table too",
    "static table short",
    "static table short by one row",
    "pair table short",
    "pair table short by one row",
    "pair table short: the order tells",
    "table short: the order tells",
    "refused with 3",
    "refused with 3: the batch is wrong too",
    "refused with 4",
    "refused with 5",
    "refused with 6",
    "refused with 7",
    "refused with 7: a get",
    "refused with 7: a get with a fault behind its kind",
    "refused with 8",
    "refused in message 1",
    "refused in message 64",
    "refused in message 64: octets behind it",
    "refused in a message: a wrong frame behind it",
    "refused in a message: an offset",
    "refused in a message: an empty one",
    "refused with 21",
    "refused with 21: wrong octet",
    "refused with 21: header cut",
    "refused with 21: message cut",
    "refused with 22",
    "refused with 22: message cut",
    "refused with 23",
];

#[derive(Default)]
pub struct Met {
    counts: BTreeMap<String, u64>,
}

impl Met {
    fn note_as(&mut self, what: &str, is: bool) {
        *self.counts.entry(what.to_string()).or_default() += u64::from(is);
    }

    /// Notes a batch by what the model says of it.
    pub fn note(&mut self, block: &[u8], batch: &[u8], said: &Batch) {
        match (Bridge::from_block(block), read_all(batch)) {
            (Some(bridge), Ok(messages)) => self.note_read(&bridge, batch, &messages, said),
            (bridge, messages) => {
                self.note_as(&format!("refused with {}", said.number), true);
                self.note_as("refused with 3: the batch is wrong too", bridge.is_none() && messages.is_err());
                self.note_frame(batch, said);
                self.note_message(batch, said);
            }
        }
    }

    fn note_read(&mut self, bridge: &Bridge, batch: &[u8], messages: &[Vec<Binding>], said: &Batch) {
        let names: Vec<BTreeSet<Named>> = messages.iter().map(|bindings| names_of(bridge, bindings)).collect();
        let needed = |table| needed(bridge, &names, table);
        let over = |table| needed(table).saturating_sub(bridge.room(table));
        let full = |table| needed(table) == bridge.room(table) && bridge.rows(table) < needed(table);
        let [vlans, statics, pairs] = [GrowingTable::Vlan, GrowingTable::Static, GrowingTable::Pair].map(over);
        if said.first > 0 {
            self.note_pair(bridge, messages, &names, said);
            self.note_as("pair: a table is short too", vlans + statics + pairs > 0);
        } else if said.table > 0 {
            self.note_as("VLAN table short", said.table == 1);
            self.note_as("VLAN table short by one row", vlans == 1);
            self.note_as("VLAN table short, static table too", vlans > 0 && statics > 0);
            self.note_as("static table short", said.table == 2);
            self.note_as("static table short by one row", vlans == 0 && statics == 1);
            self.note_as("pair table short", said.table == 3);
            self.note_as("pair table short by one row", pairs == 1);
        } else {
            self.note_as("accepted", true);
            self.note_as("accepted: on a source-routing bridge", bridge.device == SOURCE_ROUTING);
            self.note_as("accepted: no message", messages.is_empty());
            self.note_as("accepted: 64 messages", messages.len() == MOST_MESSAGES);
            self.note_as("accepted: a message without bindings", messages.iter().any(Vec::is_empty));
            let repeats = |(bindings, named): (&Vec<Binding>, &BTreeSet<Named>)| {
                let each = bindings.iter().map(|binding| names_of(bridge, std::slice::from_ref(binding)).len());
                each.sum::<usize>() > named.len()
            };
            self.note_as("accepted: a message that names a row twice", messages.iter().zip(&names).any(repeats));
            self.note_as("accepted: every VLAN row taken", full(GrowingTable::Vlan));
            self.note_as("accepted: every static row taken", full(GrowingTable::Static));
            self.note_as("accepted: every pair taken", full(GrowingTable::Pair));
            self.note_as("accepted: a name of the other device twice", foreign_twice(bridge, messages));
            let longest = messages_of(batch).iter().any(|message| message.len() == LONGEST);
            self.note_as("accepted: a message of 1472 octets", longest);
        }
    }

    fn note_pair(&mut self, bridge: &Bridge, messages: &[Vec<Binding>], names: &[BTreeSet<Named>], said: &Batch) {
        self.note_as("pair", true);
        let (first, second) = (said.first as usize - 1, said.second as usize - 1);
        let (ours, theirs) = (&messages[first], &messages[second]);
        let common: BTreeSet<&Named> = names[first].intersection(&names[second]).collect();
        let of_common = |binding: &&Binding| {
            names_of(bridge, std::slice::from_ref(*binding)).iter().any(|named| common.contains(named))
        };
        // A scalar has one name, so that two timers alone are scalars in common with no name in common.
        let one_name = ours.iter().any(|binding| theirs.iter().any(|other| other.name == binding.name));
        let scalars = common.iter().all(|named| named.growing.is_none() && named.index == [0]);
        self.note_as("pair: by a row of ports", common.iter().any(|named| named.growing == Some(GrowingTable::Pair)));
        self.note_as("pair: of timers alone", !one_name && scalars);
        self.note_as("pair: by other columns", !one_name && !scalars);
        let read_only = |binding: &&Binding| split(&binding.name).is_some_and(|(found, _)| !found.writable());
        self.note_as("pair: by a read-only name", ours.iter().filter(of_common).any(|binding| read_only(&binding)));
        self.note_as(
            "pair: by a binding at fault alone",
            [ours, theirs].iter().any(|message| {
                let (_, index) = bridge.clone().set(message);
                let others = message.iter().enumerate().filter(|(at, _)| *at + 1 != usize::from(index));
                index > 0 && !others.map(|(_, binding)| binding).any(|binding| of_common(&binding))
            }),
        );
        let lower = (0..second).any(|higher| (0..higher).any(|lower| !names[lower].is_disjoint(&names[higher])));
        self.note_as("pair: another has a lower second number", lower);
    }

    /// What is wrong with a frame.
    fn note_frame(&mut self, batch: &[u8], said: &Batch) {
        let read: usize = messages_of(batch).iter().map(|message| HEADER + message.len()).sum();
        let rest = &batch[read..];
        let cut = rest.len() < HEADER;
        let begins = rest.iter().zip(MARK).all(|(octet, mark)| *octet == mark);
        let of = |number: u32, is: bool| said.number == number && is;
        self.note_as("refused with 21: wrong octet", of(HEADER_WRONG, !begins));
        self.note_as("refused with 21: header cut", of(HEADER_WRONG, begins && cut));
        self.note_as("refused with 21: message cut", of(HEADER_WRONG, begins && !cut));
        let declared = rest.get(3..HEADER).map_or(0, |length| usize::from(u16::from_be_bytes([length[0], length[1]])));
        self.note_as("refused with 22: message cut", of(LENGTH_OVER, rest.len() < HEADER + declared));
    }

    /// What is wrong in a message.
    fn note_message(&mut self, batch: &[u8], said: &Batch) {
        if said.message == 0 {
            return;
        }
        let messages = messages_of(batch);
        let message = &messages[said.message as usize - 1];
        let of = |number: u32, is: bool| said.number == number && is;
        let is_get = message.get(3).is_some_and(|kind| *kind < 2);
        self.note_as("refused with 7: a get", of(HEAD_WRONG, is_get && read(message).is_ok()));
        let later = is_get && read(message).is_err();
        self.note_as("refused with 7: a get with a fault behind its kind", of(HEAD_WRONG, later));
        self.note_as("refused in message 1", said.message == 1);
        let last = said.message as usize == MOST_MESSAGES;
        let through: usize = messages.iter().take(MOST_MESSAGES).map(|message| HEADER + message.len()).sum();
        self.note_as("refused in message 64", last);
        self.note_as("refused in message 64: octets behind it", last && through < batch.len());
        let read: usize = messages.iter().map(|message| HEADER + message.len()).sum();
        self.note_as(
            "refused in a message: a wrong frame behind it",
            take_frame(&batch[read..]).is_err() && read < batch.len(),
        );
        self.note_as("refused in a message: an offset", said.offset > 0);
        self.note_as("refused in a message: an empty one", message.is_empty());
    }

    /// Notes what playing a batch that can be read came to.
    pub fn note_played(&mut self, said: &Batch, alike: bool, at_fault: bool, changed: bool) {
        let accepted = *said == Batch::default();
        self.note_as("accepted: a message that is answered with a fault", accepted && at_fault);
        self.note_as("accepted: the block changes", accepted && changed);
        self.note_as("pair: the order tells", said.first > 0 && !alike);
        self.note_as("table short: the order tells", said.table > 0 && !alike);
        self.note_as("pair table short: the order tells", said.table == 3 && !alike);
    }

    /// Prints all counts and returns what was never met.
    pub fn report(&self) -> Vec<&'static str> {
        for (what, count) in &self.counts {
            println!("{count:>9}  {what}");
        }
        REQUIRED.iter().filter(|what| self.counts.get(**what).is_none_or(|count| *count == 0)).copied().collect()
    }
}

/// Two messages have one name of an object that the other device has.
fn foreign_twice(bridge: &Bridge, messages: &[Vec<Binding>]) -> bool {
    let is_foreign = |name: &[u32]| split(name).is_some_and(|(found, _)| !found.is_of(bridge.device));
    let mut seen = BTreeSet::new();
    messages.iter().any(|bindings| {
        let names: BTreeSet<&[u32]> =
            bindings.iter().map(|binding| &binding.name[..]).filter(|name| is_foreign(name)).collect();
        let again = !names.is_disjoint(&seen);
        seen.extend(names);
        again
    })
}
