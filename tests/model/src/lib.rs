//! An ordinary implementation of the reference bridge, and what the differential test needs beside it.

pub mod archive;
pub mod batches;
pub mod case_file;
pub mod datagram;
pub mod datagram_calls;
pub mod fixed;
pub mod generate;
pub mod library;
pub mod model;
pub mod player;
pub mod random;
pub mod runs;
pub mod shrink;
pub mod step;
pub mod sweeps;
pub mod tally;
pub mod walks;

pub use model::bridge::Bridge;
