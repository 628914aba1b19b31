//! The library's calls on octets, as include/refbridge.h tells them: each gives a number, a count and an offset.

use super::answer::refuse_sizes;
use super::bridge::Bridge;
use super::image::BLOCK;
use super::message::Refusal;
use super::timers;

pub const BLOCK_NOT_LEGAL: Refusal = Refusal::of(3);
pub const SET_UP_REFUSED: Refusal = Refusal::of(9);

/// A number, a count and an offset.
pub type Returned = (u32, u32, u32);

fn returned(result: Result<u32, Refusal>) -> Returned {
    match result {
        Ok(count) => (0, count, 0),
        Err(Refusal { number, offset }) => (number, 0, offset),
    }
}

pub fn set_up(block: &mut [u8], ports: u32, edition: u32, device: u32, address: &[u8]) -> Returned {
    returned(match Bridge::fresh(ports, edition, device, address) {
        Some(bridge) if block.len() == BLOCK => {
            block.copy_from_slice(&bridge.image());
            Ok(0)
        }
        _ => Err(SET_UP_REFUSED),
    })
}

pub fn answer(block: &mut [u8], request: &[u8], room: &mut [u8]) -> Returned {
    let octets = respond(block, request, room.len());
    returned(octets.map(|octets| {
        room[..octets.len()].copy_from_slice(&octets);
        octets.len() as u32
    }))
}

fn respond(block: &mut [u8], request: &[u8], room_len: usize) -> Result<Vec<u8>, Refusal> {
    refuse_sizes(request.len(), room_len)?;
    let mut bridge = Bridge::from_block(block).ok_or(BLOCK_NOT_LEGAL)?;
    let octets = bridge.answer(request, room_len)?;
    block.copy_from_slice(&bridge.image());
    Ok(octets)
}

pub fn reset(block: &mut [u8]) -> Returned {
    let bridge = Bridge::from_block(block).ok_or(BLOCK_NOT_LEGAL);
    returned(bridge.map(|mut bridge| {
        bridge.reset();
        block.copy_from_slice(&bridge.image());
        0
    }))
}

pub fn to_256ths(hundredths: u32) -> Returned {
    returned(timers::to_256ths(hundredths))
}

pub fn to_hundredths(ticks: u32) -> Returned {
    returned(timers::to_hundredths(ticks))
}
