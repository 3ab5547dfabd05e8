//! Shim of the integrated exponentials, which `so3.rs` exports and nothing in the paper's scope
//! reads: the names exist and a call stops.

use helicoid_linalg::{Mat3, Real, Vec3};

#[cold]
fn outside() -> ! {
    panic!("oracle: the integrated exponentials are outside the scope");
}

pub fn gamma1<S: Real>(_phi: Vec3<S>) -> Mat3<S> {
    outside()
}

pub fn gamma2<S: Real>(_phi: Vec3<S>) -> Mat3<S> {
    outside()
}

pub fn gamma_apply_jacobians<S: Real>(_phi: Vec3<S>, _v: Vec3<S>) -> (Mat3<S>, Mat3<S>) {
    outside()
}
