//! An ordinary implementation of the reference bridge, written from the scope paper and docs/LAYOUT.md alone.
//!
//! It keeps its content between messages in maps and vectors, and shares no code with the library. Its modules
//! name each other by `super`, so that a changed copy of this folder can stand beside it (see mutants/).

pub mod answer;
pub mod bridge;
pub mod calls;
pub mod console;
pub mod image;
pub mod message;
pub mod names;
pub mod set;
pub mod terms;
pub mod timers;
