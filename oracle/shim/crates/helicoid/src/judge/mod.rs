//! The judge: the published functions called on numbers from bytes, with the function values
//! handed in by the place that reads them.

pub mod arms;
pub mod chain;
pub mod counts;
pub mod frames;
pub mod layout;
pub mod marks;
pub mod reads;
pub mod sheets;
pub mod state;
mod values;

pub use values::Values;
