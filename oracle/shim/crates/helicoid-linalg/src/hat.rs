//! Shim of `hat`: the published files say its rows, `(0, -z, y)`, `(z, 0, -x)`, `(-y, x, 0)`.

use crate::matrix::{Mat3, Matrix};
use crate::real::Real;
use crate::vector::{Vec3, Vector};

/// `[v]_×`, the matrix of the cross product by `v`; its zeros are `+0`.
#[inline]
pub fn hat<S: Real>(v: Vec3<S>) -> Mat3<S> {
    let ([x, y, z], o) = (v.0, S::zero());
    Matrix::from_rows([Vector([o, -z, y]), Vector([z, o, -x]), Vector([-y, x, o])])
}
