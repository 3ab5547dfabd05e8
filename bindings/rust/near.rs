//! How near another arm of the coefficients is: the result of `nearest_arm` at either width.

#![forbid(unsafe_code)]

#[derive(Clone, Copy, Debug, PartialEq, Eq)]
pub enum Direction {
    Down,
    Up,
}

/// The result of `nearest_arm`: at the `count`th neighbour of z in the `direction` the arm is `arm`, and no
/// nearer number has another arm.
#[derive(Clone, Copy, Debug, PartialEq, Eq)]
pub struct Near {
    pub count: u64,
    pub direction: Direction,
    pub arm: u8,
}

impl Near {
    /// From the three numbers of a call; None for a count of 0.
    pub(crate) fn from_numbers([count, direction, arm]: [u64; 3]) -> Option<Near> {
        let direction = if direction == 0 { Direction::Down } else { Direction::Up };
        (count != 0).then_some(Near { count, direction, arm: arm as u8 })
    }
}
