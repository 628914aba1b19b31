//! Batches of set messages that may be played in any order (paper 02, E10 and E13), and what their comparison with the library needs.

use crate::archive;
use crate::library;
use crate::model::calls::Returned;

pub mod compare;
pub mod draft;
pub mod generate;
pub mod judge;
pub mod met;

/// What a check returns, field by field as the header has it: all 0 for a batch that is accepted.
#[repr(C)]
#[derive(Clone, Copy, PartialEq, Eq, Debug, Default)]
pub struct Batch {
    pub number: u32,
    pub message: u32,
    pub offset: u32,
    pub first: u32,
    pub second: u32,
    pub table: u32,
}

pub type Check = fn(&[u8], &[u8]) -> Batch;

pub type Answer = fn(&mut [u8], &[u8], &mut [u8]) -> Returned;

/// The calls under test: a check, and the answer call that plays what can be read; a changed copy of the model is not played.
#[derive(Clone, Copy)]
pub struct Calls {
    pub check: Check,
    pub answer: Option<Answer>,
}

/// None where this program was built without the library.
pub fn linked() -> Option<Calls> {
    let answer = library::linked().map(|library| library.answer);
    archive::linked(Calls { check: archive::check_batch, answer })
}

// Copies of the model with one seeded fault each, and what the fault is.
#[cfg(feature = "batch_mutants")]
include!(concat!(env!("OUT_DIR"), "/batch_mutants.rs"));
#[cfg(not(feature = "batch_mutants"))]
pub const MUTANTS: &[(&str, Check)] = &[];
