//! The comparison, by sets of names: the compared names are those up to the lesser of the two last names.

use super::read::{read, Fault, Instance};
use crate::model::names::{Syntax, BRIDGE, TABLE};
use std::collections::{BTreeMap, BTreeSet};

pub const LIST_SHORT: u32 = 25;
pub const ENTRY: usize = 20;

/// What the call returns, field by field as the header has it.
#[repr(C)]
#[derive(Clone, Copy, PartialEq, Eq, Debug, Default)]
pub struct Walks {
    pub number: u32,
    pub side: u32,
    pub offset: u64,
    pub tail_at: u64,
    pub tail_len: u64,
    pub reference_only: u64,
    pub switch_only: u64,
    pub differing: u64,
}

/// Both sides of one name.
type Sides<'a> = (Option<&'a Instance>, Option<&'a Instance>);

fn refused(side: u32, fault: Fault) -> Walks {
    Walks { number: fault.number, side, offset: fault.offset as u64, ..Walks::default() }
}

pub fn compare(reference: &[u8], device: &[u8], list: &mut [u8]) -> Walks {
    let ours = match read(reference) {
        Ok(instances) => instances,
        Err(fault) => return refused(1, fault),
    };
    let theirs = match read(device) {
        Ok(instances) => instances,
        Err(fault) => return refused(2, fault),
    };
    let entries: Vec<[u8; ENTRY]> = compared(&ours, &theirs).values().filter_map(entry).collect();
    if list.len() < ENTRY * entries.len() {
        return Walks { number: LIST_SHORT, side: 1, ..Walks::default() };
    }
    list[..ENTRY * entries.len()].copy_from_slice(&entries.concat());
    let total = |kind| entries.iter().filter(|entry| entry[0] == kind).count() as u64;
    let (side, tail_at, end) = tail(&ours, reference.len(), &theirs, device.len());
    Walks {
        number: 0,
        side,
        offset: 0,
        tail_at: tail_at as u64,
        tail_len: (end - tail_at) as u64,
        reference_only: total(1),
        switch_only: total(2),
        differing: total(3),
    }
}

/// The last name that is compared; none where a walk is empty.
fn limit<'a>(ours: &'a [Instance], theirs: &'a [Instance]) -> Option<&'a Vec<u32>> {
    Some((&ours.last()?.name).min(&theirs.last()?.name))
}

/// The instances after the last name that is compared.
fn unread<'a>(walk: &'a [Instance], limit: Option<&Vec<u32>>) -> Option<&'a Instance> {
    walk.iter().find(|instance| limit.is_none_or(|limit| instance.name > *limit))
}

/// Whose tail it is, where it starts and where it ends.
fn tail(ours: &[Instance], our_end: usize, theirs: &[Instance], their_end: usize) -> (u32, usize, usize) {
    let limit = limit(ours, theirs);
    match (unread(ours, limit), unread(theirs, limit)) {
        (_, Some(first)) => (2, first.at, their_end),
        (Some(first), None) => (1, first.at, our_end),
        (None, None) => (1, our_end, our_end),
    }
}

fn compared<'a>(ours: &'a [Instance], theirs: &'a [Instance]) -> BTreeMap<&'a [u32], Sides<'a>> {
    let mut names: BTreeMap<&[u32], Sides> = BTreeMap::new();
    for instance in ours {
        names.entry(&instance.name).or_default().0 = Some(instance);
    }
    for instance in theirs {
        names.entry(&instance.name).or_default().1 = Some(instance);
    }
    let limit = limit(ours, theirs);
    names.retain(|name, _| limit.is_some_and(|limit| *name <= limit.as_slice()));
    names
}

/// The entry of one name, where it is listed.
fn entry(sides: &Sides) -> Option<[u8; ENTRY]> {
    match *sides {
        (Some(ours), None) => Some(octets([1, 0, 0, 0], ours.at, 0)),
        (None, Some(theirs)) => Some(octets([2, 0, 0, 0], 0, theirs.at)),
        (Some(ours), Some(theirs)) => difference(ours, theirs).map(|head| octets(head, ours.at, theirs.at)),
        (None, None) => None,
    }
}

fn octets(head: [u8; 4], ours: usize, theirs: usize) -> [u8; ENTRY] {
    let mut octets = [0; ENTRY];
    octets[..4].copy_from_slice(&head);
    octets[4..12].copy_from_slice(&(ours as u64).to_be_bytes());
    octets[12..].copy_from_slice(&(theirs as u64).to_be_bytes());
    octets
}

/// Kind 3, the members of each port set and the first port that differs; or nothing where the contents are the same.
fn difference(ours: &Instance, theirs: &Instance) -> Option<[u8; 4]> {
    if is_port_set(ours) && is_port_set(theirs) {
        let (ours, theirs) = (members(&ours.octets), members(&theirs.octets));
        let first = *ours.symmetric_difference(&theirs).next()?;
        return Some([3, ours.len() as u8, theirs.len() as u8, first]);
    }
    (ours.tag != theirs.tag || ours.octets != theirs.octets).then_some([3, 0, 0, 0])
}

pub fn is_port_set(instance: &Instance) -> bool {
    let under = |prefix: &[u32]| instance.name.starts_with(&[&BRIDGE, prefix].concat());
    let column = TABLE.iter().any(|row| row.syntax == Syntax::Ports && under(row.prefix));
    column && instance.tag == 0x22 && instance.octets.len() <= 8
}

/// The first octet is ports 1 to 8, highest bit lowest port.
fn members(octets: &[u8]) -> BTreeSet<u8> {
    (1..=64)
        .filter(|port| octets.get((port - 1) / 8).is_some_and(|octet| octet & (0x80 >> ((port - 1) % 8)) != 0))
        .map(|port| port as u8)
        .collect()
}
