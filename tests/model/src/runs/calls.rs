//! The two calls under test, as a table of functions: the linked library, or the model.

use super::model::{self, Case, Report};
use crate::archive;
use crate::model::calls::Returned;

#[derive(Clone, Copy)]
pub struct Calls {
    /// Number, count and offset of an event.
    pub event: fn(&mut [Case], &mut u8, u32, u32) -> Returned,
    pub report: fn(&[Case], u8) -> Report,
}

pub const STAND_IN: Calls =
    Calls { event: |cases, mark, event, id| (model::event(cases, mark, event, id), 0, 0), report: model::report };

/// None where this program was built without the library.
pub fn linked() -> Option<Calls> {
    archive::linked(Calls { event: archive::tally_event, report: archive::tally_report })
}
