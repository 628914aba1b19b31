//! A history as a case file, which the host player replays.

use crate::model::bridge::Bridge;
use crate::model::calls;
use crate::model::image::BLOCK;
use crate::model::message::{write_request, Binding, Content, Kind, Request, LONGEST};
use crate::model::names::{Object, TABLE};
use crate::player::Failure;
use crate::step::{History, Step};

pub fn hex(octets: &[u8]) -> String {
    octets.iter().map(|octet| format!("{octet:02X}")).collect()
}

/// The command that sets up a bridge; edition 1 and device 1 are left out, as they are meant where none stands.
pub fn bridge_line(ports: u32, edition: u32, device: u32, address: &[u8]) -> String {
    let octets: Vec<String> = address.iter().map(|octet| format!("{octet:02X}")).collect();
    let option = |word, number| if number == 1 { String::new() } else { format!(" {word} {number}") };
    format!("bridge {ports} {}{}{}", octets.join(":"), option("edition", edition), option("device", device))
}

/// The lines of a case file: what is played, and after each call what the model says.
pub fn case_file(history: &History, failure: &Failure) -> String {
    let start = &history.start;
    let set_up = bridge_line(start.ports, start.edition, start.device, &start.address);
    let mut lines = vec![format!("# {}", failure.difference), set_up];
    let fresh = start.made_fresh().image();
    let mut block = start.image();
    for (offset, octets) in changed_runs(&fresh, &block) {
        write_poke(&mut lines, offset, &octets);
    }
    for step in &history.steps {
        write_step(&mut lines, &mut block, step);
    }
    if let Some(request) = witness(&block, &failure.block) {
        lines.push("# the block is not as it should be, as this get shows".to_string());
        write_call(&mut lines, &mut block, &request, BLOCK, LONGEST);
    }
    lines.join("\n") + "\n"
}

/// Octets that a line of a case file can hold.
pub const MOST_OCTETS: usize = 4096;

/// Writes octets of the block, in as many lines as they need.
pub fn write_poke(lines: &mut Vec<String>, offset: usize, octets: &[u8]) {
    for (at, part) in octets.chunks(MOST_OCTETS).enumerate() {
        lines.push(format!("poke {} {}", offset + at * MOST_OCTETS, hex(part)));
    }
}

fn write_step(lines: &mut Vec<String>, block: &mut Vec<u8>, step: &Step) {
    match step {
        Step::Poke { offset, octets } => {
            block[*offset..offset + octets.len()].copy_from_slice(octets);
            write_poke(lines, *offset, octets);
        }
        Step::Call { request, block_len, room_len } => write_call(lines, block, request, *block_len, *room_len),
        Step::Reset { block_len } => write_reset(lines, block, *block_len),
        Step::Pair { first, second, room_lens } => {
            lines.push("# the next two, in the other order, must answer the same and leave the same block".to_string());
            write_call(lines, block, first, BLOCK, room_lens[0]);
            write_call(lines, block, second, BLOCK, room_lens[1]);
        }
    }
}

fn write_size(lines: &mut Vec<String>, block_len: usize) {
    if block_len != BLOCK {
        lines.push(format!("size {block_len}"));
    }
}

fn write_reset(lines: &mut Vec<String>, block: &mut Vec<u8>, block_len: usize) {
    write_size(lines, block_len);
    lines.push("reset".to_string());
    let mut given = block.clone();
    given.resize(block_len, 0);
    match calls::reset(&mut given) {
        (0, _, _) => {
            lines.push("-> accepted".to_string());
            *block = given;
        }
        (refusal, _, _) => lines.push(format!("-> refused {refusal}")),
    }
}

fn write_call(lines: &mut Vec<String>, block: &mut Vec<u8>, request: &[u8], block_len: usize, room_len: usize) {
    write_size(lines, block_len);
    if room_len != LONGEST {
        lines.push(format!("room {room_len}"));
    }
    lines.push(format!("raw {}", hex(request)));
    let mut given = block.clone();
    given.resize(block_len, 0);
    let mut room = vec![0; room_len];
    match calls::answer(&mut given, request, &mut room) {
        (0, count, _) => {
            lines.push(format!("-> octets {}", hex(&room[..count as usize])));
            *block = given;
        }
        (refusal @ 4..=8, _, offset) => lines.push(format!("-> refused {refusal} at {offset}")),
        (refusal, _, _) => lines.push(format!("-> refused {refusal}")),
    }
}

/// Offsets and octets where a block differs from another; runs that are close to each other are one.
fn changed_runs(from: &[u8], to: &[u8]) -> Vec<(usize, Vec<u8>)> {
    let mut runs: Vec<(usize, Vec<u8>)> = Vec::new();
    for at in (0..to.len()).filter(|at| from[*at] != to[*at]) {
        match runs.last_mut() {
            Some((offset, octets)) if at < *offset + octets.len() + 8 => {
                octets.extend(&to[*offset + octets.len()..=at]);
            }
            _ => runs.push((at, vec![to[at]])),
        }
    }
    runs
}

/// A get that shows a wrong block to a player that sees answers alone: of an instance that differs in the two.
fn witness(expected: &[u8], wrong: &[u8]) -> Option<Vec<u8>> {
    if expected == wrong {
        return None;
    }
    let right = Bridge::from_block(expected)?;
    let name = match Bridge::from_block(wrong) {
        Some(wrong) => first_other_instance(&right, &wrong)?,
        None => TABLE[Object::NumPorts as usize].name(&[0]),
    };
    let bindings = vec![Binding { name, content: Content::Null }];
    Some(write_request(&Request { kind: Kind::Get, id: 1, bindings }))
}

fn first_other_instance(right: &Bridge, wrong: &Bridge) -> Option<Vec<u32>> {
    let mut name = vec![0, 0];
    loop {
        let (next, other) = (right.next_binding(&name), wrong.next_binding(&name));
        if next.name != other.name && next.content != Content::EndOfMibView && other.content != Content::EndOfMibView {
            return Some(next.name.min(other.name));
        }
        if next != other {
            return Some(if next.content == Content::EndOfMibView { other.name } else { next.name });
        }
        if next.content == Content::EndOfMibView {
            return None;
        }
        name = next.name;
    }
}
