//! Counts of what was compared, so that a test that compares nothing is seen.

use crate::generate::scripts::SCRIPTS;
use crate::generate::start::PORTS;
use crate::model::bridge::{Bridge, DELETE_ON_RESET, TIMERS};
use crate::model::image::BLOCK;
use crate::model::message::{read, write_answer, Binding, Content, Kind, Refusal, Request, LONGEST};
use crate::model::names::{
    can_have, split, split_of, takes, type_of, Object, ObjectType, Shape, DEVICES, LARGEST_FRAMES, MOST_ROWS,
    SOURCE_ROUTING, TABLE,
};
use crate::model::set::{
    INCONSISTENT_NAME, INCONSISTENT_VALUE, NOT_WRITABLE, NO_CREATION, RESOURCE_UNAVAILABLE, WRONG_VALUE,
};
use std::collections::BTreeMap;

#[derive(Default)]
pub struct Tally {
    counts: BTreeMap<(&'static str, u32), u64>,
    pub calls: u64,
}

/// What must have been met at least once: a title and its numbers.
fn required() -> Vec<(&'static str, Vec<u32>)> {
    let writable = TABLE.iter().filter(|entry| entry.writable()).map(|entry| entry.object as u32);
    vec![
        ("refused", (1..=10).collect()),
        ("broken in the head, by offset", vec![0, 4, 11]),
        ("broken behind the head, by refusal", vec![4, 5, 6, 8]),
        ("a field would be where the request ends", vec![0]),
        ("set at fault", vec![5, 7, 8, 10, 11, 12, 13, 17, 18]),
        ("fault at binding", (1..=16).collect()),
        ("content, by tag", vec![0x21, 0x22, 0x23, 0x24, 0x30, 0x31, 0x32]),
        ("object read", (0..TABLE.len() as u32).collect()),
        ("object written", writable.collect()),
        ("get, by bindings", (0..=16).collect()),
        ("get-next, by bindings", (0..=16).collect()),
        ("set accepted, by bindings", (0..=16).collect()),
        ("set accepted, unchanged or changed", vec![0, 1]),
        ("tooBig, get or get-next", vec![0, 1]),
        ("tooBig by one octet", vec![0]),
        ("answer of 1472 octets", vec![0]),
        ("request of 1472 octets", vec![0]),
        ("VLAN rows", vec![0, 1, 254, 255, 256]),
        ("static rows", vec![0, 1, 254, 255, 256]),
        ("port pairs", vec![0, 1, 62, 63, 64]),
        ("row made where the table was full, VLAN, static or pair", vec![0, 1, 2]),
        ("column before the status that makes its row, VLAN, static or pair", vec![0, 1, 2]),
        ("Egress and Forbidden exchanged", vec![0]),
        ("VlanNumDeletes passed 2^32", vec![0]),
        ("set accepted, by timers bound", vec![1, 2, 3]),
        ("timers at the limit that MaxAge sets, of HelloTime or ForwardDelay", vec![0, 1]),
        ("12 on a timer, by timers bound", vec![1, 2, 3]),
        ("active VLAN rows", vec![0, 1, 255, 256]),
        ("set that leaves fewer, as many or more active VLAN rows", vec![0, 1, 2]),
        ("reset with active VLAN rows, none or some", vec![0, 1]),
        ("ports", PORTS.to_vec()),
        ("reset refused, by length or by contents", vec![0, 1]),
        ("reset, by static rows that go: none, some, all", vec![0, 1, 2]),
        ("reset that gives room where 256 stood", vec![0]),
        ("pair, by accepted messages", vec![0, 1, 2]),
        ("changed block, not legal or legal", vec![0, 1]),
        ("start, fresh or filled", vec![0, 1]),
        ("script", (0..SCRIPTS.len() as u32).collect()),
        ("set-up accepted, by ten times the device and the edition", vec![11, 12, 21, 22]),
        ("edition", vec![1, 2]),
        ("device", DEVICES.collect()),
        ("reset, by device", DEVICES.collect()),
        ("pair, by device", DEVICES.collect()),
        ("largest frame written, by its place", (0..LARGEST_FRAMES.len() as u32).collect()),
        ("largest frame refused, below the first, between two or above the last", vec![0, 1, 2]),
        ("12 on a state that makes a pair: number not bound, or at fault", vec![0, 1]),
        ("12 on a state that makes a pair where there is no room either", vec![0]),
        ("13 on a state that makes a pair, for one that lacks its number", vec![0]),
        ("11 on two ports: equal, exchanged, not of the bridge", vec![0, 1, 2]),
        ("18 and 12 on a bridge number", vec![INCONSISTENT_NAME.into(), INCONSISTENT_VALUE.into()]),
        ("17 for an object of the other device, by device", DEVICES.collect()),
        ("noSuchObject for an object of the other device, by device", DEVICES.collect()),
        ("priority written in edition 1 beside the steps, bridge's or port's", vec![0, 1]),
        ("priority written in edition 2, bridge's or port's", vec![0, 1]),
        ("priority of the old range refused in edition 2, bridge's or port's", vec![0, 1]),
        ("timer converted, to 256ths or back", vec![0, 1]),
    ]
}

impl Tally {
    pub fn note(&mut self, title: &'static str, number: u32) {
        *self.counts.entry((title, number)).or_default() += 1;
    }

    /// Notes an answer call by what the model says of it.
    pub fn note_call(
        &mut self,
        octets: &[u8],
        before: Option<&Bridge>,
        after: Option<&Bridge>,
        said: &Result<Vec<u8>, Refusal>,
    ) {
        self.calls += 1;
        match (said, before, after) {
            (Err(refusal), _, _) => self.note_refused(octets, *refusal),
            (Ok(answer), Some(before), Some(after)) => {
                self.note_sizes(octets, before, answer);
                self.note_answer(&read(octets).expect("answered"), before, after, answer);
            }
            _ => unreachable!("answered without a legal block"),
        }
    }

    /// Notes a reset by the rows that go.
    pub fn note_reset(&mut self, before: Option<&Bridge>, block_len: usize) {
        self.calls += 1;
        let Some(bridge) = before.filter(|_| block_len == BLOCK) else {
            return self.note("reset refused, by length or by contents", u32::from(block_len == BLOCK));
        };
        self.note("reset, by device", bridge.device);
        if bridge.device == SOURCE_ROUTING {
            return;
        }
        self.note("reset with active VLAN rows, none or some", u32::from(bridge.active_vlans() > 0));
        let rows = bridge.statics.len();
        let go = bridge.statics.values().filter(|row| row.status == DELETE_ON_RESET).count();
        let share = u32::from(go > 0) + u32::from(go > 0 && go == rows);
        self.note("reset, by static rows that go: none, some, all", share);
        if rows == MOST_ROWS && go > 0 {
            self.note("reset that gives room where 256 stood", 0);
        }
    }

    fn note_refused(&mut self, request: &[u8], Refusal { number, offset }: Refusal) {
        self.note("refused", number);
        match (number, offset) {
            (4..=8, 0..16) => self.note("broken in the head, by offset", offset),
            (4..=8, _) => self.note("broken behind the head, by refusal", number),
            _ => {}
        }
        if number == 4 && offset as usize == request.len() {
            self.note("a field would be where the request ends", 0);
        }
    }

    fn note_sizes(&mut self, request: &[u8], before: &Bridge, answer: &[u8]) {
        self.note("ports", before.ports);
        self.note("edition", before.edition);
        self.note("device", before.device);
        if before.device == SOURCE_ROUTING {
            self.note("port pairs", before.pairs.len() as u32);
        } else {
            for (title, rows) in [("VLAN rows", before.vlans.len()), ("static rows", before.statics.len())] {
                if matches!(rows, 0 | 1 | 254..) {
                    self.note(title, rows as u32);
                }
            }
            let active = before.active_vlans();
            if matches!(active, 0 | 1 | 255..) {
                self.note("active VLAN rows", active as u32);
            }
        }
        if answer.len() == LONGEST {
            self.note("answer of 1472 octets", 0);
        }
        if request.len() == LONGEST {
            self.note("request of 1472 octets", 0);
        }
    }

    fn note_answer(&mut self, request: &Request, before: &Bridge, after: &Bridge, answer: &[u8]) {
        let bindings = request.bindings.len() as u32;
        let (status, index) = (answer[14], answer[15]);
        match (request.kind, status) {
            (Kind::Set, 0) => self.note_accepted(&request.bindings, before, after),
            (Kind::Set, fault) => {
                self.note("set at fault", fault.into());
                self.note("fault at binding", index.into());
                let faulted = &request.bindings[usize::from(index) - 1..][..1];
                if fault == INCONSISTENT_VALUE && timers_bound(faulted) > 0 {
                    self.note("12 on a timer, by timers bound", timers_bound(&request.bindings));
                }
                if let (WRONG_VALUE, 2, Some((place, number))) = (fault, before.edition, priority(&faulted[0])) {
                    if takes(PRIORITIES[place], 1, number) {
                        self.note("priority of the old range refused in edition 2, bridge's or port's", place as u32);
                    }
                }
                self.note_routing_fault(fault, usize::from(index) - 1, &request.bindings, before);
            }
            (kind, 1) => {
                self.note("tooBig, get or get-next", u32::from(kind == Kind::GetNext));
                if whole_len(before, request) == LONGEST + 1 {
                    self.note("tooBig by one octet", 0);
                }
            }
            (kind, _) => {
                self.note(if kind == Kind::Get { "get, by bindings" } else { "get-next, by bindings" }, bindings);
                self.note_contents(answer, before.device);
            }
        }
    }

    /// Notes a fault that devices, largest frames or pairs lead to.
    fn note_routing_fault(&mut self, fault: u8, at: usize, bindings: &[Binding], before: &Bridge) {
        let Some((entry, index)) = split(&bindings[at].name) else { return };
        if !entry.is_of(before.device) {
            if fault == NOT_WRITABLE {
                self.note("17 for an object of the other device, by device", before.device);
            }
            return;
        }
        match (entry.object, fault) {
            (Object::LargestFrame, WRONG_VALUE) => {
                let Content::Integer(number) = bindings[at].content else { return };
                let part = u32::from(number > 516) + u32::from(number > 65535);
                self.note("largest frame refused, below the first, between two or above the last", part);
            }
            (Object::PairBridgeNum, INCONSISTENT_NAME | INCONSISTENT_VALUE) => {
                self.note("18 and 12 on a bridge number", fault.into());
            }
            (Object::PairBridgeState, INCONSISTENT_VALUE) => self.note_unnumbered(index, bindings, before),
            (Object::PairBridgeState, RESOURCE_UNAVAILABLE) => {
                // Without the states that lack a number there would be room.
                let whole = |binding: &&Binding| !lacks_number(binding, bindings, before);
                let others: Vec<Binding> = bindings.iter().filter(whole).cloned().collect();
                if before.clone().set(&others).0 != RESOURCE_UNAVAILABLE {
                    self.note("13 on a state that makes a pair, for one that lacks its number", 0);
                }
            }
            (Object::PairBridgeNum | Object::PairBridgeState, NO_CREATION) => {
                let [low, high] = index else { return };
                let reason =
                    if low == high { 0 } else { 2 - u32::from(can_have(Shape::Pair, before.ports, &[*high, *low])) };
                self.note("11 on two ports: equal, exchanged, not of the bridge", reason);
            }
            _ => {}
        }
    }

    /// Notes 12 on a state that makes a pair without a bridge number.
    fn note_unnumbered(&mut self, index: &[u32], bindings: &[Binding], before: &Bridge) {
        let bound = bindings.iter().any(|binding| binding.name == type_of(Object::PairBridgeNum).name(index));
        self.note("12 on a state that makes a pair: number not bound, or at fault", u32::from(bound));
        let room = before.room(type_of(Object::PairBridgeState).table().expect("a growing table"));
        if before.pairs.len() == room && bindings.len() == 1 {
            self.note("12 on a state that makes a pair where there is no room either", 0);
        }
    }

    fn note_accepted(&mut self, bindings: &[Binding], before: &Bridge, after: &Bridge) {
        self.note("set accepted, by bindings", bindings.len() as u32);
        self.note("set accepted, unchanged or changed", u32::from(before != after));
        if after.vlan_deletes < before.vlan_deletes {
            self.note("VlanNumDeletes passed 2^32", 0);
        }
        if let (Some(timers), true) = (after.timers(), timers_bound(bindings) > 0) {
            self.note_timers(timers_bound(bindings), timers);
        }
        if before.device != SOURCE_ROUTING {
            let (was, is) = (before.active_vlans(), after.active_vlans());
            let change = 1 + u32::from(is > was) - u32::from(is < was);
            self.note("set that leaves fewer, as many or more active VLAN rows", change);
        }
        for (at, binding) in bindings.iter().enumerate() {
            let Some((entry, index)) = split_of(before.device, &binding.name) else { continue };
            self.note("object written", entry.object as u32);
            if let (Object::LargestFrame, Content::Integer(number)) = (entry.object, &binding.content) {
                let place = LARGEST_FRAMES.iter().position(|frame| *frame as i32 == *number);
                self.note("largest frame written, by its place", place.expect("accepted") as u32);
            }
            if let Some((place, number)) = priority(binding) {
                match before.edition {
                    2 => self.note("priority written in edition 2, bridge's or port's", place as u32),
                    _ if takes(PRIORITIES[place], 2, number) => {}
                    _ => self.note("priority written in edition 1 beside the steps, bridge's or port's", place as u32),
                }
            }
            let made = before.get(entry.object, index).is_none() && after.get(entry.object, index).is_some();
            if made && matches!(entry.object, Object::VlanRowStatus | Object::StaticStatus | Object::PairBridgeState) {
                self.note_made(entry, index, &bindings[..at], before);
            }
            if entry.object == Object::VlanEgress && exchanged(before, after, index[0]) {
                self.note("Egress and Forbidden exchanged", 0);
            }
        }
    }

    /// Notes timers that a set has bound, and where one rule just holds.
    fn note_timers(&mut self, bound: u32, [max_age, hello_time, forward_delay]: [u32; 3]) {
        self.note("set accepted, by timers bound", bound);
        if max_age == 2 * (hello_time + 100) {
            self.note("timers at the limit that MaxAge sets, of HelloTime or ForwardDelay", 0);
        }
        if 2 * (forward_delay - 100) == max_age {
            self.note("timers at the limit that MaxAge sets, of HelloTime or ForwardDelay", 1);
        }
    }

    /// Notes a made row where a simpler agent might not make it.
    fn note_made(&mut self, status: &ObjectType, index: &[u32], earlier: &[Binding], before: &Bridge) {
        let table = status.table().expect("a growing table");
        if before.rows(table) == before.room(table) {
            self.note("row made where the table was full, VLAN, static or pair", table as u32);
        }
        let of_row = |binding: &Binding| {
            split(&binding.name).is_some_and(|(entry, at)| entry.shape == status.shape && at == index)
        };
        if earlier.iter().any(of_row) {
            self.note("column before the status that makes its row, VLAN, static or pair", table as u32);
        }
    }

    fn note_contents(&mut self, answer: &[u8], device: u32) {
        let length = |at: usize| usize::from(answer[at + 1]) * 256 + usize::from(answer[at + 2]);
        let mut at = 16;
        while at < answer.len() {
            let name_len = length(at + 3);
            let tag = answer[at + 6 + name_len];
            self.note("content, by tag", tag.into());
            let sub_ids = answer[at + 6..at + 6 + name_len].chunks_exact(4);
            let name: Vec<u32> = sub_ids.map(|octets| u32::from_be_bytes(octets.try_into().unwrap())).collect();
            match (split(&name), tag) {
                (Some((entry, _)), ..0x30) => self.note("object read", entry.object as u32),
                (Some((entry, _)), 0x30) if !entry.is_of(device) => {
                    self.note("noSuchObject for an object of the other device, by device", device);
                }
                _ => {}
            }
            at += 3 + length(at);
        }
    }

    /// Prints all counts, and gives what was never met.
    pub fn report(&self) -> Vec<String> {
        let mut titles: Vec<&'static str> = self.counts.keys().map(|(title, _)| *title).collect();
        titles.dedup();
        for title in titles {
            let of_title = self.counts.iter().filter(|((other, _), _)| *other == title);
            let counts = of_title.map(|((_, number), count)| format!("{} {count}", label(title, *number)));
            println!("{title}: {}", counts.collect::<Vec<String>>().join(", "));
        }
        let mut missing = Vec::new();
        for (title, numbers) in required() {
            let never = numbers.into_iter().filter(|number| !self.counts.contains_key(&(title, *number)));
            missing.extend(never.map(|number| format!("{title}: {}", label(title, number))));
        }
        missing
    }
}

/// A number as it is reported.
fn label(title: &str, number: u32) -> String {
    match title {
        "object read" | "object written" => format!("{:?}", TABLE[number as usize].object),
        "content, by tag" => format!("{number:X}:"),
        "script" => SCRIPTS[number as usize].0.to_string(),
        _ => format!("{number}:"),
    }
}

const PRIORITIES: [Object; 2] = [Object::StpPriority, Object::StpPortPriority];

/// Which priority a binding writes, and its number; none where it writes none.
fn priority(binding: &Binding) -> Option<(usize, u32)> {
    let (entry, _) = split(&binding.name)?;
    let place = PRIORITIES.iter().position(|object| *object == entry.object)?;
    match binding.content {
        Content::Integer(number) => Some((place, u32::try_from(number).ok()?)),
        _ => None,
    }
}

/// How many timers the bindings name.
fn timers_bound(bindings: &[Binding]) -> u32 {
    let named = TIMERS.map(|timer| bindings.iter().any(|binding| binding.name == type_of(timer).name(&[0])));
    named.into_iter().map(u32::from).sum()
}

/// A state that makes a pair whose bridge number no binding names.
fn lacks_number(binding: &Binding, bindings: &[Binding], before: &Bridge) -> bool {
    let Some((entry, index)) = split(&binding.name) else { return false };
    let making = matches!(binding.content, Content::Integer(1 | 2));
    let absent = before.get(entry.object, index).is_none();
    let number = type_of(Object::PairBridgeNum).name(index);
    entry.object == Object::PairBridgeState && making && absent && bindings.iter().all(|other| other.name != number)
}

/// A port went from Egress to Forbidden, and another one the other way.
fn exchanged(before: &Bridge, after: &Bridge, id: u32) -> bool {
    match (before.vlans.get(&id), after.vlans.get(&id)) {
        (Some(old), Some(new)) => old.egress & new.forbidden != 0 && old.forbidden & new.egress != 0,
        _ => false,
    }
}

/// How long the answer would be if none were too big.
fn whole_len(bridge: &Bridge, request: &Request) -> usize {
    let answered = request.bindings.iter().map(|binding| match request.kind {
        Kind::Get => bridge.get_binding(&binding.name),
        _ => bridge.next_binding(&binding.name),
    });
    16 + answered.map(|binding| write_answer(0, 0, 0, &[binding]).len() - 16).sum::<usize>()
}
