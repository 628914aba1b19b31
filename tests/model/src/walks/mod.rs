//! Request E11: two walks compared, written a second time from the change requests, their rulings and
//! include/refbridge.h, and what the differential test of it needs.

pub mod compare;
pub mod generate;
pub mod library;
pub mod met;
pub mod read;
