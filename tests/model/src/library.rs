//! The calls under test, as a table of functions: the linked library, or the model itself behind octets.

use crate::archive;
use crate::model::calls;
pub use crate::model::calls::Returned;

#[derive(Clone, Copy)]
pub struct Library {
    pub set_up: fn(&mut [u8], u32, u32, u32, &[u8]) -> Returned,
    pub answer: fn(&mut [u8], &[u8], &mut [u8]) -> Returned,
    pub reset: fn(&mut [u8]) -> Returned,
    pub to_256ths: fn(u32) -> Returned,
    pub to_hundredths: fn(u32) -> Returned,
}

/// The model, which takes the block apart and puts it together again in each call.
pub const STAND_IN: Library = Library {
    set_up: calls::set_up,
    answer: calls::answer,
    reset: calls::reset,
    to_256ths: calls::to_256ths,
    to_hundredths: calls::to_hundredths,
};

// Copies of the model with one seeded fault each, and what the fault is.
#[cfg(feature = "mutants")]
include!(concat!(env!("OUT_DIR"), "/mutants.rs"));
#[cfg(not(feature = "mutants"))]
pub const MUTANTS: &[(&str, Library)] = &[];

/// None where this program was built without the library.
pub fn linked() -> Option<Library> {
    archive::linked(Library {
        set_up: archive::set_up,
        answer: archive::answer,
        reset: archive::reset,
        to_256ths: archive::to_256ths,
        to_hundredths: archive::to_hundredths,
    })
}
