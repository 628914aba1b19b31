//! The model behind C calls, as an ordinary implementation to measure beside the library.
//!
//! Once as an agent would use it, with a bridge that is kept between messages and never checked, and once on a block as
//! the library is used: checked and read before each message, written after it.

use refbridge_model::model::calls;
use refbridge_model::Bridge;
use std::slice::{from_raw_parts, from_raw_parts_mut};

const BLOCK: usize = 32768;
const ROOM: usize = 1472;

/// A bridge that the model keeps, from a legal block.
///
/// # Safety
/// The block has 32,768 octets.
#[no_mangle]
pub unsafe extern "C" fn model_open(block: *const u8) -> *mut Bridge {
    let bridge = Bridge::from_block(unsafe { from_raw_parts(block, BLOCK) });
    bridge.map_or(std::ptr::null_mut(), |bridge| Box::into_raw(Box::new(bridge)))
}

/// The answer's length, or 0 where the request is refused.
///
/// # Safety
/// The bridge is one of `model_open`, the request has that many octets, the room has 1,472.
#[no_mangle]
pub unsafe extern "C" fn model_answer_kept(
    bridge: *mut Bridge,
    request: *const u8,
    length: usize,
    room: *mut u8,
) -> u32 {
    let (bridge, request, room) =
        unsafe { (&mut *bridge, from_raw_parts(request, length), from_raw_parts_mut(room, ROOM)) };
    match bridge.answer(request, ROOM) {
        Ok(octets) => {
            room[..octets.len()].copy_from_slice(&octets);
            octets.len() as u32
        }
        Err(_) => 0,
    }
}

/// The same on a block.
///
/// # Safety
/// The block has 32,768 octets, the request has that many, the room has 1,472.
#[no_mangle]
pub unsafe extern "C" fn model_answer_block(block: *mut u8, request: *const u8, length: usize, room: *mut u8) -> u32 {
    let (block, request, room) =
        unsafe { (from_raw_parts_mut(block, BLOCK), from_raw_parts(request, length), from_raw_parts_mut(room, ROOM)) };
    calls::answer(block, request, room).1
}
