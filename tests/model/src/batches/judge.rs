//! The batch checker of paper 02's E10, with rulings 57 to 62, and E12's table: refusals first, then pairs of messages, then room.

use crate::batches::Batch;
use crate::model::bridge::Bridge;
use crate::model::calls::BLOCK_NOT_LEGAL;
use crate::model::console::{Event, Stream, HEADER_WRONG};
use crate::model::message::{read, Binding, Refusal, HEAD_WRONG};
use crate::model::names::{GrowingTable, GROWING};
use crate::model::terms::{named_by, Named};
use std::collections::BTreeSet;

/// Messages of a batch.
pub const MOST_MESSAGES: usize = 64;
/// Octets behind 64 frames.
pub const BATCH_LONG: u32 = 23;

/// `rb_check_batch`.
pub fn check(block: &[u8], batch: &[u8]) -> Batch {
    let Some(bridge) = Bridge::from_block(block) else { return refused(BLOCK_NOT_LEGAL.number) };
    let messages = match read_all(batch) {
        Ok(messages) => messages,
        Err(refusal) => return refusal,
    };
    let names: Vec<BTreeSet<Named>> = messages.iter().map(|bindings| names_of(&bridge, bindings)).collect();
    if let Some((first, second)) = first_pair(&names) {
        return Batch { first: first as u32 + 1, second: second as u32 + 1, ..Batch::default() };
    }
    Batch { table: first_short(&bridge, &names), ..Batch::default() }
}

fn refused(number: u32) -> Batch {
    Batch { number, ..Batch::default() }
}

/// Frame 1, message 1, frame 2 and so on: the bindings of each message, or the first refusal.
pub fn read_all(batch: &[u8]) -> Result<Vec<Vec<Binding>>, Batch> {
    let mut rest = batch;
    let mut messages = Vec::new();
    while !rest.is_empty() {
        if messages.len() == MOST_MESSAGES {
            return Err(refused(BATCH_LONG));
        }
        let (octets, behind) = take_frame(rest).map_err(refused)?;
        let message = messages.len() as u32 + 1;
        let bindings = read_set(&octets).map_err(|Refusal { number, offset }| Batch {
            number,
            message,
            offset,
            ..Batch::default()
        })?;
        messages.push(bindings);
        rest = behind;
    }
    Ok(messages)
}

/// The message of the first frame, and the octets behind it. A frame is one of the serial console (E7); one that is cut is 21.
pub fn take_frame(batch: &[u8]) -> Result<(Vec<u8>, &[u8]), u32> {
    let mut stream = Stream::fresh();
    for (at, octet) in batch.iter().enumerate() {
        match stream.octet(*octet) {
            Event::Nothing => {}
            Event::Message(message) => return Ok((message, &batch[at + 1..])),
            Event::Refused(number) => return Err(number),
        }
    }
    Err(HEADER_WRONG)
}

/// The bindings of a set. The kind is judged at field 01, before the fields behind it.
fn read_set(message: &[u8]) -> Result<Vec<Binding>, Refusal> {
    if matches!(message, [0x01, 0, 1, kind, ..] if *kind != 3) {
        return Err(Refusal::of(HEAD_WRONG));
    }
    Ok(read(message)?.bindings)
}

/// The rows and scalars that a message names, those of bindings at fault too; the three timers are one (ruling 59).
pub fn names_of(bridge: &Bridge, bindings: &[Binding]) -> BTreeSet<Named> {
    named_by(bridge, bindings)
}

/// The least lower number, then the least higher, of two messages that name something in common; counted from 0.
fn first_pair(names: &[BTreeSet<Named>]) -> Option<(usize, usize)> {
    let of = |first: usize| (first + 1..names.len()).map(move |second| (first, second));
    let mut pairs = (0..names.len()).flat_map(of);
    pairs.find(|(first, second)| !names[*first].is_disjoint(&names[*second]))
}

/// The first table whose live rows and absent rows named are over its room, from 1: VLAN, static, port pairs; 0 where there is none.
fn first_short(bridge: &Bridge, names: &[BTreeSet<Named>]) -> u32 {
    let is_short = |table: &GrowingTable| needed(bridge, names, *table) > bridge.room(*table);
    GROWING.iter().position(is_short).map_or(0, |place| place as u32 + 1)
}

/// Live rows and absent rows named, each once, of a growing table.
pub fn needed(bridge: &Bridge, names: &[BTreeSet<Named>], table: GrowingTable) -> usize {
    let all: BTreeSet<&Named> = names.iter().flatten().collect();
    let absent = all.iter().filter(|row| row.growing == Some(table) && !bridge.live(row)).count();
    bridge.rows(table) + absent
}
