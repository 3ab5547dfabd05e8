//! Numbers in a row, as the wrappers of both sides have them: matrices column by column, a block as
//! a, b, c, f, e, a pose as quaternion, translation, log scale, a tangent as φ, ρ, σ.

use crate::given::Given;
use helicoid::sim3::access::{block, block_parts};
use helicoid::{Quat, Sim3, Sim3Jac, Sim3Tangent, SO3};
use helicoid_linalg::float::Float;
use helicoid_linalg::{Mat3, Matrix, Vec3, Vector};

#[inline(always)]
pub fn vector(x: &[Float], at: usize) -> Vec3<Given> {
    Vector([Given(x[at]), Given(x[at + 1]), Given(x[at + 2])])
}

#[inline(always)]
pub fn matrix(x: &[Float], at: usize) -> Mat3<Given> {
    Matrix::from_cols([vector(x, at), vector(x, at + 3), vector(x, at + 6)])
}

#[inline(always)]
pub fn pose(x: &[Float], at: usize) -> Sim3<Given> {
    let [w, i, j, k] = [0, 1, 2, 3].map(|n| Given(x[at + n]));
    let q = SO3::from_quat_unchecked(Quat { w, x: i, y: j, z: k });
    Sim3::from_parts(q, vector(x, at + 4), Given(x[at + 7]))
}

#[inline(always)]
pub fn tangent(x: &[Float], at: usize) -> Sim3Tangent<Given> {
    Sim3Tangent { phi: vector(x, at), rho: vector(x, at + 3), sigma: Given(x[at + 6]) }
}

#[inline(always)]
pub fn jacobian(x: &[Float], at: usize) -> Sim3Jac<Given> {
    let (a, b, c) = (matrix(x, at), matrix(x, at + 9), matrix(x, at + 18));
    block(a, b, c, vector(x, at + 27), Given(x[at + 30]))
}

/// The ten values that begin at `at`.
#[inline(always)]
pub fn values(x: &[Float], at: usize) -> &[Float; 10] {
    x[at..].first_chunk().expect("ten values")
}

#[inline(always)]
pub fn put<const N: usize>(out: &mut [Float], at: usize, row: [Given; N]) {
    for (i, n) in row.into_iter().enumerate() {
        out[at + i] = n.0;
    }
}

#[inline(always)]
pub fn put_flag(out: &mut [Float], at: usize, flag: bool) {
    out[at] = if flag { 1.0 } else { 0.0 };
}

#[inline(always)]
pub fn put_pose(out: &mut [Float], x: &Sim3<Given>) {
    let (r, t, sigma) = x.parts();
    let q = r.quat();
    put(out, 0, [q.w, q.x, q.y, q.z]);
    put(out, 4, t.0);
    put(out, 7, [sigma]);
}

#[inline(always)]
pub fn put_jacobian(out: &mut [Float], at: usize, j: &Sim3Jac<Given>) {
    let (a, b, c, f, e) = block_parts(j);
    for (i, m) in [a, b, c].into_iter().enumerate() {
        for column in 0..3 {
            put(out, at + 9 * i + 3 * column, m.col(column).0);
        }
    }
    put(out, at + 27, f.0);
    put(out, at + 30, [e]);
}
