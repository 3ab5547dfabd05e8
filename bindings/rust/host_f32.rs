//! The host's function values for singles: those of host.rs, computed in doubles, and each rounded once.

#![forbid(unsafe_code)]

use crate::functions_f32::{Matrix, Pose, Tangent, Values, Vector};
use crate::host;

/// The nearest singles.
fn singles<const N: usize>(numbers: [f64; N]) -> [f32; N] {
    numbers.map(|x| x as f32)
}

/// z = |phi|².
pub fn norm_sq(phi: &Vector) -> f32 {
    host::norm_sq(&phi.map(f64::from)) as f32
}

/// The rotation vector of a tangent.
pub fn phi(tau: &Tangent) -> Vector {
    tau.phi()
}

/// The ten values for a log scale and a squared angle.
pub fn values(sigma: f32, z: f32) -> Values {
    Values(singles(host::values(sigma.into(), z.into()).0))
}

/// The ten values of a tangent, whose squared angle is not rounded before the root.
pub fn tangent_values(tau: &Tangent) -> Values {
    Values(singles(host::tangent_values(&crate::Tangent(tau.0.map(f64::from))).0))
}

/// e^sigma of a pose.
pub fn up(x: &Pose) -> f32 {
    f64::from(x.numbers[7]).exp() as f32
}

/// e^-sigma of a pose.
pub fn down(x: &Pose) -> f32 {
    (-f64::from(x.numbers[7])).exp() as f32
}

/// e^(sigma of X - sigma of Y), which `mul_inv` reads.
pub fn ds(x: &Pose, y: &Pose) -> f32 {
    (f64::from(x.numbers[7]) - f64::from(y.numbers[7])).exp() as f32
}

/// SO(3)'s left Jacobian at phi and its inverse, each column by column.
pub fn rotation_jacobians(phi: &Vector) -> (Matrix, Matrix) {
    let (jl, jl_inv) = host::rotation_jacobians(&phi.map(f64::from));
    (singles(jl), singles(jl_inv))
}
