//! Which functions a published function evaluates, in order, and which handed-in value each
//! returns: the paper's "values go by the place that reads them". The conditions are the paper's
//! limits, written here once more, so an arm that the Rust takes elsewhere stops the program.

use super::Values;
use helicoid_linalg::float::{at_width, Float};
use helicoid_linalg::handed::{expect, expect_jacobian, expect_sin_cos, Function, H};
use helicoid_linalg::{Mat3, RotationJacobian, Vec3};

/// The closed arm begins here, in `Δ`.
const CLOSED_FROM: Float = at_width(0x3fff_b1ff_bc2a_9c8c, 0x4017_c496);

/// The least first limit of either circle group, in `z`: that of `cos θ/2`. From here on some
/// member is on its exact arm, so the group's functions are evaluated.
const CIRCLE_EXACT_FROM: Float = at_width(0x4014_ee95_3b2f_4f99, 0x4091_02bc);

/// The exponential of a number: `up`, `down` or what else the place reads.
#[inline(always)]
pub fn exponential_at(arg: Float, value: Float) {
    expect(Function::Exp, arg, value);
}

/// `exp_coeffs`: root and half angle. NaN takes the exact arm.
#[inline(always)]
pub fn exp_coeffs(z: Float, v: &Values) {
    if !(z < CIRCLE_EXACT_FROM) {
        expect(Function::Sqrt, z, v.root);
        expect_sin_cos(0.5 * v.root, v.sin_half, v.cos_half);
    }
}

/// `sinc_a_b_d`: the same and the sine of the whole angle.
#[inline(always)]
pub fn sinc_a_b_d(z: Float, v: &Values) {
    if !(z < CIRCLE_EXACT_FROM) {
        exp_coeffs(z, v);
        expect(Function::Sin, v.root, v.sin);
    }
}

/// `sim3_coeffs_scaled` and `sim3_v_scaled`: nothing in the series arm, `Transcendentals::at` in
/// the closed one. Answers whether the coefficients are scaled.
#[inline(always)]
pub fn scaled_coefficients(sigma: Float, z: Float, v: &Values) -> bool {
    if sigma * sigma + z < CLOSED_FROM {
        return false;
    }
    sinc_a_b_d(z, v);
    let scaled = 0.0 < sigma;
    let t = if scaled { -sigma } else { sigma };
    expect(Function::Exp, t, v.e);
    expect(Function::ExpM1, t, v.m);
    scaled
}

/// `sim3_coeffs_scaled_pair`: at a zero of either sign in the closed arm, `mirrored` evaluates
/// once more.
#[inline(always)]
pub fn scaled_pair(sigma: Float, z: Float, v: &Values) {
    scaled_coefficients(sigma, z, v);
    if sigma == 0.0 && !(sigma * sigma + z < CLOSED_FROM) {
        expect(Function::Exp, -sigma, v.e0);
        expect(Function::ExpM1, -sigma, v.m0);
    }
}

/// `sim3_coeffs` and `sim3_v`: the scaled ones and `unscale`.
#[inline(always)]
pub fn coefficients(sigma: Float, z: Float, v: &Values) {
    if scaled_coefficients(sigma, z, v) {
        exponential_at(sigma, v.up);
    }
}

/// `Sim3::exp`: the coefficients for the translation, then `SO3::exp`.
#[inline(always)]
pub fn exponential(sigma: Float, z: Float, v: &Values) {
    coefficients(sigma, z, v);
    exp_coeffs(z, v);
}

/// The coefficients and `jl_and_inverse_from`: `up` in `unscale`, `down` as `inv_scale`.
#[inline(always)]
pub fn block_and_inverse(sigma: Float, z: Float, v: &Values) {
    if scaled_coefficients(sigma, z, v) {
        exponential_at(sigma, v.up);
        exponential_at(-sigma, v.down);
    }
}

/// SO(3)'s left Jacobian at `phi`.
#[inline]
pub fn rotation_jacobian(phi: Vec3<H>, j: &Mat3<H>) {
    expect_jacobian(RotationJacobian::Left, phi.0.map(|x| x.0), columns(j));
}

/// The inverse of SO(3)'s left Jacobian at `phi`.
#[inline]
pub fn rotation_jacobian_inverse(phi: Vec3<H>, j: &Mat3<H>) {
    expect_jacobian(RotationJacobian::LeftInverse, phi.0.map(|x| x.0), columns(j));
}

#[inline]
fn columns(m: &Mat3<H>) -> [[Float; 3]; 3] {
    core::array::from_fn(|c| m.col(c).0.map(|x| x.0))
}
