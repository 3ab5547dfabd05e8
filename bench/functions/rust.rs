//! The Rust's side: the published generic functions at the scalar `Given`, each behind a boundary
//! of the same kind as the port's wrapper of the same number, and never inlined into the timing.

use crate::given::{set_exponential, set_values, Given};
use crate::layout::*;
use helicoid::coefficients as c;
use helicoid::sim3::access::{jl_and_inverse_from, squared_angle};
use helicoid::{Jac, LieGroup, Sim3, Sim3Tangent, Tangent};
use helicoid_linalg::float::Float;
use helicoid_linalg::{Mat3, Point, Point3};

macro_rules! wrappers {
    ($($name:ident($x:ident: $in:literal, $out:ident: $width:literal) $body:block)*) => {$(
        #[inline(never)]
        pub extern "C" fn $name($x: &[Float; $in], $out: &mut [Float; $width]) -> u32 {
            $body
            0
        }
    )*};
}

wrappers! {
    coeffs(x: 12, out: 9) {
        set_values(values(x, 2));
        put(out, 0, c::sim3_coeffs(Given(x[0]), Given(x[1])));
    }
    coeffs_v(x: 12, out: 4) {
        set_values(values(x, 2));
        put(out, 0, c::sim3_v(Given(x[0]), Given(x[1])));
    }
    coeffs_scaled(x: 12, out: 10) {
        set_values(values(x, 2));
        let (row, scaled) = c::sim3_coeffs_scaled(Given(x[0]), Given(x[1]));
        put(out, 0, row);
        put_flag(out, 9, scaled);
    }
    coeffs_scaled_pair(x: 12, out: 20) {
        set_values(values(x, 2));
        let [pos, neg] = c::sim3_coeffs_scaled_pair(Given(x[0]), Given(x[1]));
        put(out, 0, pos.0);
        put_flag(out, 9, pos.1);
        put(out, 10, neg.0);
        put_flag(out, 19, neg.1);
    }
    exp(x: 17, out: 8) {
        set_values(values(x, 7));
        put_pose(out, &Sim3::exp(&tangent(x, 0)));
    }
    mul(x: 17, out: 8) {
        set_exponential(&x[16]);
        put_pose(out, &(pose(x, 0) * pose(x, 8)));
    }
    inverse(x: 9, out: 8) {
        set_exponential(&x[8]);
        put_pose(out, &pose(x, 0).inverse());
    }
    act(x: 12, out: 3) {
        set_exponential(&x[8]);
        put(out, 0, (pose(x, 0) * Point(vector(x, 9).0)).0);
    }
    adjoint(x: 9, out: 31) {
        set_exponential(&x[8]);
        put_jacobian(out, 0, &pose(x, 0).adjoint());
    }
    block_inverse(x: 31, out: 31) {
        put_jacobian(out, 0, &jacobian(x, 0).inverse());
    }
    block_singles(x: 35, out: 124) {
        set_values(values(x, 7));
        let (tau, j, i) = (tangent(x, 0), matrix(x, 17), matrix(x, 26));
        let z = squared_angle(tau.phi);
        let at_tau = c::sim3_coeffs_scaled(tau.sigma, z);
        put_side(out, 0, &tau, at_tau, (j, i));
        let minus = tau.neg();
        let z = squared_angle(minus.phi);
        let at_minus = c::sim3_coeffs_scaled(minus.sigma, z);
        put_side(out, 62, &minus, at_minus, (j.transpose(), i.transpose()));
    }
    block_pair(x: 35, out: 124) {
        set_values(values(x, 7));
        let (tau, j, i) = (tangent(x, 0), matrix(x, 17), matrix(x, 26));
        let [pos, neg] = c::sim3_coeffs_scaled_pair(tau.sigma, squared_angle(tau.phi));
        put_side(out, 0, &tau, pos, (j, i));
        put_side(out, 62, &tau.neg(), neg, (j.transpose(), i.transpose()));
    }
}

/// A tangent's block and inverse, from its coefficients and rotation Jacobians.
#[inline(always)]
fn put_side(
    out: &mut [Float; 124],
    at: usize,
    tau: &Sim3Tangent<Given>,
    coefficients: (c::Row<Given>, bool),
    jacobians: (Mat3<Given>, Mat3<Given>),
) {
    let z = squared_angle(tau.phi);
    let (j, inv) = jl_and_inverse_from(tau, z, coefficients, jacobians);
    put_jacobian(out, at, &j);
    put_jacobian(out, at + 31, &inv);
}

/// A list of numbers as points, in place. `Given` and `Point` are laid out as what they hold.
#[inline(always)]
fn points(list: &mut [Float]) -> &mut [Point3<Given>] {
    let n = list.len() / 3;
    // SAFETY: `Point3<Given>` is transparent over `[Given; 3]`, and `Given` over `Float`.
    unsafe { core::slice::from_raw_parts_mut(list.as_mut_ptr().cast(), n) }
}

/// `act_many` in place, as the Rust has it.
#[inline(never)]
pub fn act_many(x: &[Float; 9], list: &mut [Float]) {
    set_exponential(&x[8]);
    pose(x, 0).act_many(points(list));
}

/// The single action on each point, in place.
#[inline(never)]
pub fn act_each(x: &[Float; 9], list: &mut [Float]) {
    set_exponential(&x[8]);
    let x = pose(x, 0);
    for p in points(list) {
        *p = x * *p;
    }
}
