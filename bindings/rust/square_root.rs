//! The square root with its remainder.

#![forbid(unsafe_code)]

use crate::{raw, unexpected, Refusal};

/// The result of [`root`]. For a finite z > 0, z = m·4^exponent with an integer m, 2^104 <= m < 2^106; for
/// a zero, zeros.
#[derive(Clone, Copy, Debug, PartialEq)]
pub struct Root {
    /// The largest integer whose square is at most m.
    pub root: u64,
    /// m - root².
    pub remainder: u64,
    pub exponent: i64,
    /// The double nearest to √z. At a zero it has z's sign.
    pub nearest: f64,
}

/// The square root of z with its remainder; refused if z is below zero, a NaN or infinite.
pub fn root(z: f64) -> Result<Root, Refusal> {
    let (mut whole, mut exponent, mut nearest) = ([0; 2], [0], [0.0]);
    match raw::root(z, &mut whole, &mut exponent, &mut nearest) {
        0 => Ok(Root {
            root: whole[0],
            remainder: whole[1],
            exponent: exponent[0],
            nearest: nearest[0],
        }),
        1 => Err(Refusal::BelowZero),
        8 => Err(Refusal::NotFinite),
        refused => unexpected(refused),
    }
}
