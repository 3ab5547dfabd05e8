//! The judge's way to what `sim3.rs` keeps private. The build appends one line to that file's
//! copy, which declares this module, so the private functions are in its sight.

use super::{Sim3, Sim3Jac, Sim3Tangent};
use crate::coeffs::sweep::{from_row, Row};
use helicoid_linalg::{Mat3, Real, Vec3};

/// `jl_and_inverse_from`, its coefficients in a row.
#[inline]
pub fn jl_and_inverse_from<S: Real>(
    tau: &Sim3Tangent<S>,
    z: S,
    (row, scaled): (Row<S>, S::Mask),
    jacobians: (Mat3<S>, Mat3<S>),
) -> (Sim3Jac<S>, Sim3Jac<S>) {
    let coefficients = (from_row(row), scaled);
    super::jl_and_inverse_from(tau.phi, tau.rho, tau.sigma, z, coefficients, jacobians)
}

/// `exp_and_jl`.
#[inline]
pub fn exp_and_jl<S: Real>(tau: &Sim3Tangent<S>) -> (Sim3<S>, Sim3Jac<S>) {
    super::exp_and_jl(tau)
}

/// A block Jacobian from its parts.
#[inline(always)]
pub fn block<S: Real>(a: Mat3<S>, b: Mat3<S>, c: Mat3<S>, f: Vec3<S>, e: S) -> Sim3Jac<S> {
    Sim3Jac { a, b, c, f, e }
}

/// The parts of a block Jacobian.
#[inline(always)]
pub fn block_parts<S: Real>(j: &Sim3Jac<S>) -> (Mat3<S>, Mat3<S>, Mat3<S>, Vec3<S>, S) {
    (j.a, j.b, j.c, j.f, j.e)
}

/// `so3`'s `norm_sq`, the squared angle of a tangent.
#[inline(always)]
pub fn squared_angle<S: Real>(phi: Vec3<S>) -> S {
    super::norm_sq(phi)
}

/// `a · v^`.
#[inline(always)]
pub fn mul_hat<S: Real>(a: &Mat3<S>, v: Vec3<S>) -> Mat3<S> {
    super::mul_hat(a, v)
}

/// `v^ · b`.
#[inline(always)]
pub fn hat_mul<S: Real>(v: Vec3<S>, b: &Mat3<S>) -> Mat3<S> {
    super::hat_mul(v, b)
}
