//! AT-BUP written a second time, from the papers alone: frames, their reader, UBF blocks, the module's session and the host's.
//!
//! `flat` offers the same calls as the C header, over plain bytes and numbers, so that two implementations can be compared.

pub mod ends;
pub mod flat;
mod flat_ends;
pub mod host;
pub mod kind;
pub mod module;
pub mod reader;
pub mod refusal;
pub mod ubf;
pub mod wire;

#[cfg(test)]
mod tests;
