//! Adversarial inputs: single numbers, log scales and angles at every limit, function values that
//! belong to them or to nothing, poses with their frames, and blocks.

mod angles;
mod frames;
mod history;
mod lone;
mod numbers;
mod poses;
mod records;
mod retakes;
mod rng;
mod values;

pub use history::History;
pub use numbers::Mood;
pub use records::{marks, Letters};
pub use retakes::Retakes;
pub use rng::Rng;

/// A source of inputs; the same seed gives the same inputs.
pub struct Source {
    pub rng: Rng,
    frames: Rng,
}

impl Source {
    pub fn new(seed: u64) -> Self {
        Self { rng: Rng::new(seed), frames: Rng::new(!seed) }
    }
}
