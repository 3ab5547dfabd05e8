//! Both signs together against each sign apart.

use super::same;
use helicoid::judge::{reads, Values};
use helicoid::sim3::access::{block_parts, jl_and_inverse_from, squared_angle};
use helicoid::{coefficients, LieGroup, Sim3, Sim3Jac, Sim3Tangent, Tangent};
use helicoid_linalg::float::Float;
use helicoid_linalg::handed::{finish, H};
use helicoid_linalg::{Mat3, Matrix, Vector};
use oracle::inputs::Source;

/// A log scale, a squared angle and ten values.
fn input(source: &mut Source) -> (Float, Float, Values) {
    let (sigma, z) = source.sigma_angle();
    (sigma, z, Values::from_array(source.values(sigma, z)))
}

pub fn tangent(a: [Float; 7]) -> Sim3Tangent<H> {
    Sim3Tangent::read_dense(&a.map(H))
}

pub fn matrix(a: [Float; 9]) -> Mat3<H> {
    Matrix::from_cols([0, 3, 6].map(|i| Vector([H(a[i]), H(a[i + 1]), H(a[i + 2])])))
}

pub fn block(j: &Sim3Jac<H>) -> [Float; 31] {
    let (a, b, c, f, e) = block_parts(j);
    let entry = |m: &Mat3<H>, i: usize| m.get(i % 3, i / 3).0;
    core::array::from_fn(|i| match i {
        0..=8 => entry(&a, i),
        9..=17 => entry(&b, i - 9),
        18..=26 => entry(&c, i - 18),
        27..=29 => f.0[i - 27].0,
        _ => e.0,
    })
}

fn single(sigma: Float, z: Float, v: &Values) -> ([Float; 9], bool) {
    reads::scaled_coefficients(sigma, z, v);
    let (row, scaled) = coefficients::sim3_coeffs_scaled(H(sigma), H(z));
    finish();
    (row.map(|x| x.0), scaled)
}

pub fn scaled_pair(source: &mut Source) -> Result<(), String> {
    let (sigma, z, v) = input(source);
    reads::scaled_pair(sigma, z, &v);
    let pair = coefficients::sim3_coeffs_scaled_pair(H(sigma), H(z));
    finish();
    let apart = [single(sigma, z, &v), single(-sigma, z, &v.mirrored(sigma))];
    for ((row, scaled), (expected, flag)) in pair.into_iter().zip(apart) {
        if !same(&row.map(|x| x.0), &expected) || scaled != flag {
            return Err(format!("σ = {sigma:e}, z = {z:e}, {v:?}"));
        }
    }
    Ok(())
}

pub fn series_pair(source: &mut Source) -> Result<(), String> {
    let ((sigma, z), k) = (source.sigma_angle(), source.rng.below(65));
    let [plus, minus] = coefficients::series_pair(H(sigma), H(z), k);
    let apart = [sigma, -sigma].map(|s| coefficients::series(H(s), H(z), k).map(|x| x.0));
    let [plus, minus] = [plus, minus].map(|row| row.map(|x| x.0));
    match same(&plus, &apart[0]) && same(&minus, &apart[1]) {
        true => Ok(()),
        false => Err(format!("σ = {sigma:e}, z = {z:e}, k = {k}")),
    }
}

pub fn v_alone(source: &mut Source) -> Result<(), String> {
    let (sigma, z, v) = input(source);
    reads::coefficients(sigma, z, &v);
    let full = coefficients::sim3_coeffs(H(sigma), H(z)).map(|x| x.0);
    finish();
    reads::coefficients(sigma, z, &v);
    let alone = coefficients::sim3_v(H(sigma), H(z)).map(|x| x.0);
    finish();
    match same(&[full[0], full[1], full[2], full[8]], &alone) {
        true => Ok(()),
        false => Err(format!("σ = {sigma:e}, z = {z:e}, {v:?}")),
    }
}

/// `J_l(τ)` and its inverse through the group's public functions, whose bodies form `z`, the
/// coefficients and the rotation Jacobians on their way.
fn public(
    tau: &Sim3Tangent<H>,
    v: &Values,
    jl: &Mat3<H>,
    inv: &Mat3<H>,
) -> ([Float; 31], [Float; 31]) {
    let (sigma, z) = (tau.sigma.0, squared_angle(tau.phi).0);
    reads::coefficients(sigma, z, v);
    reads::rotation_jacobian(tau.phi, jl);
    let j = Sim3::jl(tau);
    finish();
    let scaled = reads::scaled_coefficients(sigma, z, v);
    reads::rotation_jacobian(tau.phi, jl);
    reads::rotation_jacobian_inverse(tau.phi, inv);
    if scaled {
        reads::exponential_at(sigma, v.up);
        reads::exponential_at(-sigma, v.down);
    }
    let inverse = Sim3::jl_inv(tau);
    finish();
    (block(&j), block(&inverse))
}

pub fn blocks(source: &mut Source) -> Result<(), String> {
    let given = source.tangent();
    let tau = tangent(given);
    let z = squared_angle(tau.phi);
    let v = Values::from_array(source.values(given[6], z.0));
    let (jl, inv) = source.rotation_jacobians([given[0], given[1], given[2]]);
    let (jl, inv) = (matrix(jl), matrix(inv));
    reads::block_and_inverse(tau.sigma.0, z.0, &v);
    let scaled = coefficients::sim3_coeffs_scaled(tau.sigma, z);
    let (j, inverse) = jl_and_inverse_from(&tau, z, scaled, (jl, inv));
    finish();
    let expected = public(&tau, &v, &jl, &inv);
    match same(&block(&j), &expected.0) && same(&block(&inverse), &expected.1) {
        true => Ok(()),
        false => Err(format!("τ = {given:?}, {v:?}")),
    }
}

fn exp(tau: &Sim3Tangent<H>, v: &Values) -> Sim3<H> {
    reads::exponential(tau.sigma.0, squared_angle(tau.phi).0, v);
    let x = Sim3::exp(tau);
    finish();
    x
}

pub fn exponential(source: &mut Source) -> Result<(), String> {
    let given = source.tangent();
    let tau = tangent(given);
    let v = Values::from_array(source.values(given[6], squared_angle(tau.phi).0));
    let q = exp(&tau, &v).rotation().quat();
    let n = exp(&tau.neg(), &v.mirrored(given[6])).rotation().quat();
    let negated = [n.w.0, -n.x.0, -n.y.0, -n.z.0];
    match same(&[q.w.0, q.x.0, q.y.0, q.z.0], &negated) {
        true => Ok(()),
        false => Err(format!("τ = {given:?}, {v:?}")),
    }
}
