//! What the oracle's programs share: the table of library functions and the source of inputs.

pub mod inputs;
pub mod library;
