//! The run tally (paper 02, E1), written a second time, and what its comparison with the library needs.

pub mod calls;
pub mod check;
pub mod faults;
pub mod model;
