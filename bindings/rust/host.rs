//! The host's function values, by Rust's `f64`: the one place where root, sine, exponential and the
//! rotation Jacobians are computed for Rust. The engine takes any numbers here; these are the true
//! ones.
//!
//! The values of the negative tangent, which no function of this crate asks for, follow from those
//! of the tangent: up and down change places; e and e0, m and m0 change places where sigma is a
//! zero; the rest stays. Its rotation Jacobians are the transposed ones.

#![forbid(unsafe_code)]

use crate::{Matrix, Pose, Refusal, Tangent, Values, Vector};

/// z = |phi|², by the same sum as the engine's.
pub fn norm_sq(phi: &Vector) -> f64 {
    (phi[0] * phi[0] + phi[1] * phi[1]) + phi[2] * phi[2]
}

/// The rotation vector of a tangent.
pub fn phi(tau: &Tangent) -> Vector {
    tau.phi()
}

/// t = -|sigma|, but sigma itself where it is a zero, whose sign counts, or a NaN.
fn shrinking(sigma: f64) -> f64 {
    if sigma < 0.0 || sigma > 0.0 {
        -sigma.abs()
    } else {
        sigma
    }
}

/// √z by the engine's own [`crate::root`], for a host that has none to rely on; it has the bits of
/// `f64::sqrt`. What is refused has the root that IEEE 754 gives it: a NaN below zero; a NaN and
/// +infinity are their own.
pub fn root(z: f64) -> f64 {
    match crate::root(z) {
        Ok(found) => found.nearest,
        Err(Refusal::NotFinite) => z,
        Err(_) => f64::NAN,
    }
}

/// The ten values for a log scale and a squared angle, whose root is taken by `root`: `f64::sqrt`, or
/// [`root`].
pub fn values_by(root: impl Fn(f64) -> f64, sigma: f64, z: f64) -> Values {
    let r = root(z);
    let (here, there) = (shrinking(sigma), shrinking(-sigma));
    Values([
        r,
        (0.5 * r).sin(),
        (0.5 * r).cos(),
        r.sin(),
        here.exp(),
        here.exp_m1(),
        there.exp(),
        there.exp_m1(),
        sigma.exp(),
        (-sigma).exp(),
    ])
}

/// The same with the machine's root.
pub fn values(sigma: f64, z: f64) -> Values {
    values_by(f64::sqrt, sigma, z)
}

/// The ten values of a tangent.
pub fn tangent_values(tau: &Tangent) -> Values {
    values(tau[6], norm_sq(&phi(tau)))
}

/// e^sigma of a pose.
pub fn up(x: &Pose) -> f64 {
    x.numbers[7].exp()
}

/// e^-sigma of a pose.
pub fn down(x: &Pose) -> f64 {
    (-x.numbers[7]).exp()
}

/// e^(sigma of X - sigma of Y), which `mul_inv` reads.
pub fn ds(x: &Pose, y: &Pose) -> f64 {
    (x.numbers[7] - y.numbers[7]).exp()
}

/// 1/(2i + 2)!
const A: [f64; 12] = [
    0.5,
    0.041666666666666664,
    0.001388888888888889,
    2.48015873015873e-05,
    2.755731922398589e-07,
    2.08767569878681e-09,
    1.1470745597729725e-11,
    4.779477332387385e-14,
    1.5619206968586225e-16,
    4.110317623312165e-19,
    8.896791392450574e-22,
    1.6117375710961184e-24,
];

/// 1/(2i + 3)!
const B: [f64; 12] = [
    0.16666666666666666,
    0.008333333333333333,
    0.0001984126984126984,
    2.7557319223985893e-06,
    2.505210838544172e-08,
    1.6059043836821613e-10,
    7.647163731819816e-13,
    2.8114572543455206e-15,
    8.22063524662433e-18,
    1.9572941063391263e-20,
    3.868170170630684e-23,
    6.446950284384474e-26,
];

/// (2i + 2)/(2i + 4)!
const C: [f64; 12] = [
    0.08333333333333333,
    0.005555555555555556,
    0.00014880952380952382,
    2.204585537918871e-06,
    2.08767569878681e-08,
    1.376489471727567e-10,
    6.691268265342339e-13,
    2.499073114973796e-15,
    7.398571721961897e-18,
    1.7793582784901146e-20,
    3.54582265641146e-23,
    5.951031031739514e-26,
];

/// The sum of (-1)^i weight[i] z^i, from the highest term.
fn series(z: f64, weight: &[f64; 12]) -> f64 {
    weight.iter().rev().fold(0.0, |total, w| w - z * total)
}

/// a, b, c of J = I + a W + b W² and its inverse I - W/2 + c W², W the hat of phi:
/// a = (1 - cos r)/z, b = (r - sin r)/r³, c = (1 - (r/2) cot(r/2))/z; below z = 1, where these lose
/// digits, by the series of a, of b and of 2 a c = (2 a - sin r/r)/z.
fn rotation_coefficients(z: f64) -> (f64, f64, f64) {
    if z < 1.0 {
        let a = series(z, &A);
        return (a, series(z, &B), series(z, &C) / (2.0 * a));
    }
    let r = z.sqrt();
    let (s, t) = ((0.5 * r).sin(), (0.5 * r).tan());
    (2.0 * s * s / z, (r - r.sin()) / (r * z), (1.0 - 0.5 * r / t) / z)
}

/// SO(3)'s left Jacobian at phi and its inverse, each column by column.
pub fn rotation_jacobians(phi: &Vector) -> (Matrix, Matrix) {
    let [x, y, z] = *phi;
    let hat = [0.0, z, -y, -z, 0.0, x, y, -x, 0.0];
    let squared = norm_sq(phi);
    let (a, b, c) = rotation_coefficients(squared);
    let (mut jl, mut jl_inv) = ([0.0; 9], [0.0; 9]);
    for i in 0..9 {
        let (row, column) = (i % 3, i / 3);
        let (unit, less) = if row == column { (1.0, squared) } else { (0.0, 0.0) };
        let square = phi[row] * phi[column] - less;
        jl[i] = unit + (a * hat[i] + b * square);
        jl_inv[i] = unit + (c * square - 0.5 * hat[i]);
    }
    (jl, jl_inv)
}
