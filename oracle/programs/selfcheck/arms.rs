//! AR's bytes, which the judge forms by the paper's limits, against what the Rust does.

use super::same;
use helicoid::coefficients;
use helicoid::judge::arms::{told, CLOSED, TERMS};
use helicoid::judge::{reads, Values};
use helicoid_linalg::float::Float;
use helicoid_linalg::handed::{finish, H};
use oracle::inputs::Source;

/// The Rust's coefficients with this value as `M`, the other nine being 1.
fn with_m(sigma: Float, z: Float, m: Float) -> [Float; 9] {
    let v = Values { m, ..Values::from_array([1.0; 10]) };
    reads::scaled_coefficients(sigma, z, &v);
    let (row, _) = coefficients::sim3_coeffs_scaled(H(sigma), H(z));
    finish();
    row.map(|x| x.0)
}

/// An arm below the closed one has the numbers of the series with its count of terms. The closed
/// arm reads `M` in `v1`; its `v0` and `w0` read it only where they are not series.
pub fn bytes(source: &mut Source) -> Result<(), String> {
    let (sigma, z) = source.arm_angle();
    let [arm, by_series] = told(sigma, z);
    let [one, other] = [0.25, 0.75].map(|m| with_m(sigma, z, m));
    let good = if arm < CLOSED {
        let series = coefficients::series(H(sigma), H(z), TERMS[arm as usize - 1]);
        by_series == 0 && same(&one, &series.map(|x| x.0))
    } else {
        let unmoved = same(&[one[0], one[3]], &[other[0], other[3]]);
        !sigma.is_finite() && by_series == 0 || unmoved == (by_series == 1)
    };
    match good && told(-sigma, z) == [arm, by_series] {
        true => Ok(()),
        false => Err(format!("σ = {sigma:e}, z = {z:e}: arm {arm}, {by_series}")),
    }
}
