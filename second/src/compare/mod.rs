//! The parts of the comparison: one file for each kind of input.

pub mod bench;
pub mod caller;
pub mod host;
pub mod host_forged;
pub mod jobs;
pub mod module;
pub mod module_forged;
pub mod numbers;
pub mod post;
pub mod reader;
pub mod rng;
pub mod talk;
pub mod tally;
pub mod ubf;
pub mod wire;
