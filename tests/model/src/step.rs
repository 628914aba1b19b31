//! What a history is made of.

use crate::model::bridge::Bridge;
use crate::model::image::BLOCK;
use crate::model::message::LONGEST;

#[derive(Clone, PartialEq, Eq, Debug)]
pub enum Step {
    /// Octets of the block are changed from outside.
    Poke { offset: usize, octets: Vec<u8> },
    /// One answer call, with the lengths of block and room that it is given.
    Call { request: Vec<u8>, block_len: usize, room_len: usize },
    /// One reset, with the length of the block that it is given.
    Reset { block_len: usize },
    /// Two set messages, played in both orders on two copies; the history goes on after `first`, `second`.
    Pair { first: Vec<u8>, second: Vec<u8>, room_lens: [usize; 4] },
}

impl Step {
    pub fn call(request: Vec<u8>) -> Step {
        Step::Call { request, block_len: BLOCK, room_len: LONGEST }
    }
}

#[derive(Clone)]
pub struct History {
    pub start: Bridge,
    pub steps: Vec<Step>,
}
