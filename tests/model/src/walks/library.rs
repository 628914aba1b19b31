//! The call under test.

use super::compare::Walks;
use crate::archive;

/// A comparison of two walks that writes its entries to a list.
pub type Compare = fn(&[u8], &[u8], &mut [u8]) -> Walks;

// Copies of the model with one seeded fault each, and what the fault is.
#[cfg(feature = "walk_mutants")]
include!(concat!(env!("OUT_DIR"), "/walk_mutants.rs"));
#[cfg(not(feature = "walk_mutants"))]
pub const MUTANTS: &[(&str, Compare)] = &[];

/// None where this program was built without the library.
pub fn linked() -> Option<Compare> {
    archive::linked(archive::compare_walks)
}
