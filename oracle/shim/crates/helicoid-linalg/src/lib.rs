//! Shim of `helicoid-linalg`'s root: it declares the two published files, `matrix.rs` and
//! `vector.rs`, and the absent ones that they and the crate above name.

#![allow(dead_code)]

mod dual;
pub mod float;
pub mod handed;
mod hat;
mod matrix;
mod point;
mod real;
mod strided;
mod vector;

pub use dual::Dual;
pub use hat::hat;
pub use matrix::{Mat2, Mat3, Matrix};
pub use point::{Point, Point3};
pub use real::{Blend, Mask, Precision, Real, RotationJacobian};
pub use strided::StridedMut;
pub use vector::{Vec2, Vec3, Vector};
