//! The library's calls, of the archive that this program is linked with: one function over slices for each call of include/refbridge.h.

use crate::batches::Batch;
use crate::datagram_calls::Given;
use crate::model::calls::Returned;
use crate::model::console::Taken;
use crate::runs::model::{Case, Report};
use crate::walks::compare::Walks;

/// A table of the functions below; none where this program was built without the library.
pub fn linked<Calls>(calls: Calls) -> Option<Calls> {
    cfg!(linked).then_some(calls)
}

/// What most calls return.
#[repr(C)]
struct Result {
    number: u32,
    count: u32,
    offset: u32,
}

#[repr(C)]
struct Datagram {
    number: u32,
    count: u32,
    community_at: u32,
    community_len: u32,
}

/// Declares the calls. Without the library they are functions that end the program, and `linked` keeps them from being called.
macro_rules! calls {
    ($(fn $name:ident($($argument:ident: $kind:ty),*) -> $result:ty;)*) => {
        #[cfg(linked)]
        #[link(name = "refbridge", kind = "static")]
        extern "C" {
            $(fn $name($($argument: $kind),*) -> $result;)*
        }
        $(#[cfg(not(linked))]
        unsafe fn $name($(_: $kind),*) -> $result {
            unreachable!("built without the library")
        })*
    };
}

calls! {
    fn rb_setup(block: *mut u8, block_len: usize, ports: u32, edition: u32, device: u32, address: *const u8, address_len: usize) -> Result;
    fn rb_answer(block: *mut u8, block_len: usize, request: *const u8, request_len: usize, room: *mut u8, room_len: usize) -> Result;
    fn rb_reset(block: *mut u8, block_len: usize) -> Result;
    fn rb_to_256ths(hundredths: u32) -> Result;
    fn rb_to_hundredths(ticks: u32) -> Result;
    fn rb_tally_event(cases: *mut Case, count: usize, ended: *mut u8, event: u32, id: u32) -> Result;
    fn rb_tally_report(cases: *const Case, count: usize, ended: u8) -> Report;
    fn rb_from_datagram(datagram: *const u8, len: usize, room: *mut u8, room_len: usize) -> Datagram;
    fn rb_from_captured(datagram: *const u8, len: usize, room: *mut u8, room_len: usize) -> Datagram;
    fn rb_to_datagram(message: *const u8, len: usize, community: *const u8, community_len: usize, room: *mut u8, room_len: usize) -> Result;
    fn rb_console_take(state: *mut u8, state_len: usize, chunk: *const u8, chunk_len: usize, room: *mut u8, room_len: usize) -> Taken;
    fn rb_console_reset(state: *mut u8, state_len: usize) -> Result;
    fn rb_check_batch(block: *const u8, block_len: usize, batch: *const u8, batch_len: usize) -> Batch;
    fn rb_compare_walks(reference: *const u8, reference_len: usize, device: *const u8, device_len: usize, list: *mut u8, list_len: usize) -> Walks;
}

fn returned(result: Result) -> Returned {
    (result.number, result.count, result.offset)
}

fn read(result: Datagram) -> Given {
    let Datagram { number, count, community_at, community_len } = result;
    Given { number, count, community: (community_at, community_len), offset: 0 }
}

// Each slice is valid for its length, and they do not overlap: that is all the header asks.

pub fn set_up(block: &mut [u8], ports: u32, edition: u32, device: u32, address: &[u8]) -> Returned {
    returned(unsafe {
        rb_setup(block.as_mut_ptr(), block.len(), ports, edition, device, address.as_ptr(), address.len())
    })
}

pub fn answer(block: &mut [u8], request: &[u8], room: &mut [u8]) -> Returned {
    let (block_at, room_at) = (block.as_mut_ptr(), room.as_mut_ptr());
    returned(unsafe { rb_answer(block_at, block.len(), request.as_ptr(), request.len(), room_at, room.len()) })
}

pub fn reset(block: &mut [u8]) -> Returned {
    returned(unsafe { rb_reset(block.as_mut_ptr(), block.len()) })
}

pub fn to_256ths(hundredths: u32) -> Returned {
    returned(unsafe { rb_to_256ths(hundredths) })
}

pub fn to_hundredths(ticks: u32) -> Returned {
    returned(unsafe { rb_to_hundredths(ticks) })
}

pub fn tally_event(cases: &mut [Case], mark: &mut u8, event: u32, id: u32) -> Returned {
    returned(unsafe { rb_tally_event(cases.as_mut_ptr(), cases.len(), mark, event, id) })
}

pub fn tally_report(cases: &[Case], mark: u8) -> Report {
    unsafe { rb_tally_report(cases.as_ptr(), cases.len(), mark) }
}

pub fn from_datagram(datagram: &[u8], room: &mut [u8]) -> Given {
    read(unsafe { rb_from_datagram(datagram.as_ptr(), datagram.len(), room.as_mut_ptr(), room.len()) })
}

pub fn from_captured(datagram: &[u8], room: &mut [u8]) -> Given {
    read(unsafe { rb_from_captured(datagram.as_ptr(), datagram.len(), room.as_mut_ptr(), room.len()) })
}

pub fn to_datagram(message: &[u8], community: &[u8], room: &mut [u8]) -> Given {
    let (message_at, community_at, room_at) = (message.as_ptr(), community.as_ptr(), room.as_mut_ptr());
    let result =
        unsafe { rb_to_datagram(message_at, message.len(), community_at, community.len(), room_at, room.len()) };
    let (number, count, offset) = returned(result);
    Given { number, count, community: (0, 0), offset }
}

pub fn console_take(state: &mut [u8], chunk: &[u8], room: &mut [u8]) -> Taken {
    let (state_at, room_at) = (state.as_mut_ptr(), room.as_mut_ptr());
    unsafe { rb_console_take(state_at, state.len(), chunk.as_ptr(), chunk.len(), room_at, room.len()) }
}

pub fn console_reset(state: &mut [u8]) -> Returned {
    returned(unsafe { rb_console_reset(state.as_mut_ptr(), state.len()) })
}

pub fn check_batch(block: &[u8], batch: &[u8]) -> Batch {
    unsafe { rb_check_batch(block.as_ptr(), block.len(), batch.as_ptr(), batch.len()) }
}

pub fn compare_walks(reference: &[u8], device: &[u8], list: &mut [u8]) -> Walks {
    let (reference_at, device_at, list_at) = (reference.as_ptr(), device.as_ptr(), list.as_mut_ptr());
    unsafe { rb_compare_walks(reference_at, reference.len(), device_at, device.len(), list_at, list.len()) }
}
