//! Tangents in a fixed order: each number by IEEE 754's totalOrder, the first difference deciding. NaNs
//! with different bits differ, and keep them.

#![forbid(unsafe_code)]

use crate::{raw, unexpected, Refusal, Tangent};
use std::cmp::Ordering;

/// The tangent a against b; `Equal` where all bits are the same.
pub fn compare_tangents(a: &Tangent, b: &Tangent) -> Ordering {
    let mut order = [0];
    match raw::compare_tangents(&a.0, &b.0, &mut order) {
        0 => order[0].cmp(&0),
        refused => unexpected(refused),
    }
}

/// Puts the tangents in order, smallest first; refused where there are more than 1,024.
pub fn sort_tangents(list: &mut [Tangent]) -> Result<(), Refusal> {
    match raw::sort_tangents(list) {
        0 => Ok(()),
        5 => Err(Refusal::TooManyTangents { tangents: list.len() }),
        refused => unexpected(refused),
    }
}
