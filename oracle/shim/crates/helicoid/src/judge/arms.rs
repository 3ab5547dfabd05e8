//! Which rule a coefficient set comes from: the bytes of AR's answer, by the paper's limits. The
//! Rust does not tell them, so this is written here once more and apart from its tables.

use helicoid_linalg::float::{all_at_width, at_width, by_width, Float};

/// Where the arms 2 to 4 and the closed arm begin, in `Δ`.
const ARM_FROM: [Float; 4] = all_at_width(
    [0x3f0c_70e5_9cfc_9f1f, 0x3fa5_9742_aa36_710d, 0x3fd0_e813_9c96_fc79, 0x3fff_b1ff_bc2a_9c8c],
    [0x3a7c_e158, 0x3e03_ba20, 0x3f20_5df3, 0x4017_c496],
);

/// Below this `σσ` the closed arm takes `v0` and `w0` from series.
const SERIES_V0_BELOW: Float = at_width(0x3fe2_a775_0162_6657, 0x3f15_3ba8);

/// How many terms the arms 1 to 4 take.
pub const TERMS: [usize; 4] = by_width([6, 11, 14, 19], [4, 7, 9, 11]);

/// The closed arm's number.
pub const CLOSED: u8 = 5;

/// The arm of `σ` and `z`, 1 to 5 in rising `Δ`: the first whose end lies above `Δ`. A NaN lies
/// below no end.
pub fn arm(sigma: Float, z: Float) -> u8 {
    let delta = sigma * sigma + z;
    let below = ARM_FROM.iter().position(|end| delta < *end);
    below.map_or(CLOSED, |place| place as u8 + 1)
}

/// The two bytes of AR's answer for one sign: the arm, and 1 where `v0` and `w0` of the closed arm
/// come from series, else 0.
pub fn told(sigma: Float, z: Float) -> [u8; 2] {
    let arm = arm(sigma, z);
    let by_series = arm == CLOSED && sigma * sigma < SERIES_V0_BELOW;
    [arm, u8::from(by_series)]
}
