//! The coefficient functions on plain numbers, for any scalar.
//!
//! `coeffs/mod.rs` declares a module of this name under its own feature `__sweep`, for programs
//! that measure the coefficients; this is the shim's. Every function hands its arguments to the
//! published function of the same name and lays the answer out in a row:
//! `v0 v1 v2 w0 w1 w2 dv1 dv2 χΔ`.

use super::{kernel, sim3};
use helicoid_linalg::float::Float;
use helicoid_linalg::Real;

/// The nine numbers of a coefficient set.
pub type Row<S> = [S; 9];

#[inline(always)]
fn row<S: Real>(c: sim3::Sim3Coeffs<S>) -> Row<S> {
    let ([v0, v1, v2], [w0, w1, w2], [dv1, dv2]) = (c.v, c.w, c.dv);
    [v0, v1, v2, w0, w1, w2, dv1, dv2, c.chi_delta]
}

/// The coefficient set of nine numbers, [`row`]'s inverse.
#[inline(always)]
pub(crate) fn from_row<S: Real>(r: Row<S>) -> sim3::Sim3Coeffs<S> {
    let [v0, v1, v2, w0, w1, w2, dv1, dv2, chi_delta] = r;
    sim3::Sim3Coeffs { v: [v0, v1, v2], w: [w0, w1, w2], dv: [dv1, dv2], chi_delta }
}

/// `(k, cos θ/2)`.
#[inline]
pub fn exp_coeffs<S: Real>(z: S) -> (S, S) {
    super::exp_coeffs(z)
}

/// `(sin θ/θ, a, b, d)`.
#[inline]
pub fn sinc_a_b_d<S: Real>(z: S) -> (S, S, S, S) {
    kernel::sinc_a_b_d(z)
}

/// The series with a free depth, in full.
#[inline]
pub fn series<S: Real>(sigma: S, z: S, k: usize) -> Row<S> {
    row(sim3::series::<S, true>(sigma, z, k))
}

/// The series with a free depth, `v` alone: `v0 v1 v2 χΔ`.
#[inline]
pub fn series_v<S: Real>(sigma: S, z: S, k: usize) -> [S; 4] {
    let c = sim3::series::<S, false>(sigma, z, k);
    [c.v[0], c.v[1], c.v[2], c.chi_delta]
}

/// The series at `σ` and `-σ` with a free depth.
#[inline]
pub fn series_pair<S: Real>(sigma: S, z: S, k: usize) -> [Row<S>; 2] {
    sim3::access::series_pair(sigma, z, k).map(row)
}

#[inline]
pub fn sim3_coeffs<S: Real>(sigma: S, z: S) -> Row<S> {
    row(super::sim3_coeffs(sigma, z))
}

#[inline]
pub fn sim3_coeffs_scaled<S: Real>(sigma: S, z: S) -> (Row<S>, S::Mask) {
    let (c, scaled) = super::sim3_coeffs_scaled(sigma, z);
    (row(c), scaled)
}

#[inline]
pub fn sim3_coeffs_scaled_pair<S: Real>(sigma: S, z: S) -> [(Row<S>, S::Mask); 2] {
    super::sim3_coeffs_scaled_pair(sigma, z).map(|(c, scaled)| (row(c), scaled))
}

/// `v0 v1 v2 χΔ`.
#[inline]
pub fn sim3_v<S: Real>(sigma: S, z: S) -> [S; 4] {
    let (v, chi_delta) = super::sim3_v(sigma, z);
    [v[0], v[1], v[2], chi_delta]
}

#[inline]
pub fn sim3_v_scaled<S: Real>(sigma: S, z: S) -> ([S; 3], S::Mask) {
    super::sim3_v_scaled(sigma, z)
}

#[inline]
pub fn unscale<S: Real>(c: Row<S>, sigma: S, scaled: S::Mask) -> Row<S> {
    row(super::unscale(from_row(c), sigma, scaled))
}

/// The five circle rows of this width in the order of `sinc_a_b_d`'s group, `k`, `cos θ/2`, `a`,
/// `b`, `d`, and how many terms of each a whole arm reads.
macro_rules! circle_rows {
    ($($swept:ident $row:ident),+) => {
        pub const CIRCLE_ROWS: [[Float; 16]; 5] = [$(super::generated::$swept),+];
        pub const CIRCLE_TERMS: [usize; 5] = [$(super::generated::$row.series.len()),+];
    };
}
#[cfg(not(single))]
circle_rows!(
    SWEPT_K_F64 K_F64, SWEPT_COS_HALF_F64 COS_HALF_F64,
    SWEPT_A_F64 A_F64, SWEPT_B_F64 B_F64, SWEPT_D_F64 D_F64
);
#[cfg(single)]
circle_rows!(
    SWEPT_K_F32 K_F32, SWEPT_COS_HALF_F32 COS_HALF_F32,
    SWEPT_A_F32 A_F32, SWEPT_B_F32 B_F32, SWEPT_D_F32 D_F32
);
