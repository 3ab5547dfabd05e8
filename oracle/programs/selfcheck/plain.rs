//! The same Rust with plain `Float`, whose functions are the host's, against the handed-in values
//! where these are the host's: every value is read in its place.

use super::same;
use super::signs::{block, matrix, tangent};
use helicoid::judge::{reads, Values};
use helicoid::sim3::access::{block_parts, jl_and_inverse_from, squared_angle};
use helicoid::{coefficients, LieGroup, SO3Tangent, Sim3, Sim3Jac, Sim3Tangent, Tangent, SO3};
use helicoid_linalg::float::Float;
use helicoid_linalg::handed::{finish, H};
use helicoid_linalg::{Mat3, Vector};
use oracle::inputs::Source;

fn columns(m: &Mat3<Float>) -> [Float; 9] {
    core::array::from_fn(|i| m.get(i % 3, i / 3))
}

fn plain_block(j: &Sim3Jac<Float>) -> [Float; 31] {
    let (a, b, c, f, e) = block_parts(j);
    let mut all = [0.0; 31];
    all[..9].copy_from_slice(&columns(&a));
    all[9..18].copy_from_slice(&columns(&b));
    all[18..27].copy_from_slice(&columns(&c));
    all[27..30].copy_from_slice(&f.0);
    all[30] = e;
    all
}

pub fn coefficients(source: &mut Source) -> Result<(), String> {
    let (sigma, z) = source.sigma_angle();
    let v = Values::of_host(sigma, z);
    reads::coefficients(sigma, z, &v);
    let handed = coefficients::sim3_coeffs(H(sigma), H(z)).map(|x| x.0);
    finish();
    match same(&handed, &coefficients::sim3_coeffs(sigma, z)) {
        true => Ok(()),
        false => Err(format!("σ = {sigma:e}, z = {z:e}")),
    }
}

fn pose(x: &Sim3<Float>) -> [Float; 8] {
    let (r, t, sigma) = x.parts();
    let q = r.quat();
    [q.w, q.x, q.y, q.z, t.0[0], t.0[1], t.0[2], sigma]
}

pub fn exponential(source: &mut Source) -> Result<(), String> {
    let given = source.tangent();
    let tau = tangent(given);
    let z = squared_angle(tau.phi).0;
    reads::exponential(given[6], z, &Values::of_host(given[6], z));
    let (r, t, sigma) = Sim3::exp(&tau).parts();
    finish();
    let q = r.quat();
    let handed = [q.w, q.x, q.y, q.z, t.0[0], t.0[1], t.0[2], sigma].map(|x| x.0);
    match same(&handed, &pose(&Sim3::exp(&Sim3Tangent::read_dense(&given)))) {
        true => Ok(()),
        false => Err(format!("τ = {given:?}")),
    }
}

pub fn blocks(source: &mut Source) -> Result<(), String> {
    let given = source.tangent();
    let (tau, plain) = (tangent(given), Sim3Tangent::read_dense(&given));
    let t = SO3Tangent { phi: Vector([given[0], given[1], given[2]]) };
    let (jl, inv) = (SO3::jl(&t), SO3::jl_inv(&t));
    let z = squared_angle(tau.phi);
    reads::block_and_inverse(given[6], z.0, &Values::of_host(given[6], z.0));
    let scaled = coefficients::sim3_coeffs_scaled(tau.sigma, z);
    let handed_jacobians = (matrix(columns(&jl)), matrix(columns(&inv)));
    let (j, inverse) = jl_and_inverse_from(&tau, z, scaled, handed_jacobians);
    finish();
    let expected = (plain_block(&Sim3::jl(&plain)), plain_block(&Sim3::jl_inv(&plain)));
    match same(&block(&j), &expected.0) && same(&block(&inverse), &expected.1) {
        true => Ok(()),
        false => Err(format!("τ = {given:?}")),
    }
}
