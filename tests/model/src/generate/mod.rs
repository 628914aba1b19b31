//! Random histories: bridges to start from, and steps that are aimed at what a bridge holds now.

pub mod blocks;
pub mod contents;
pub mod damage;
pub mod names;
pub mod pairs;
pub mod scripts;
pub mod sets;
pub mod start;
