//! The ten proved examples.

use super::same;
use helicoid::judge::arms::TERMS;
use helicoid::judge::{reads, Values};
use helicoid::{coefficients, LieGroup, Quat, Sim3, Sim3Tangent};
use helicoid_linalg::float::{all_at_width, Float};
use helicoid_linalg::handed::{expect, finish, Function, H};
use helicoid_linalg::Vector;

/// Values that belong to nothing.
fn values() -> Values {
    Values::from_array([1.1, 0.3, 0.7, 0.9, 0.2, -0.8, 0.4, -0.6, 5.0, 0.25])
}

fn scaled(sigma: Float, z: Float) -> ([Float; 9], bool) {
    reads::scaled_coefficients(sigma, z, &values());
    let (row, scaled) = coefficients::sim3_coeffs_scaled(H(sigma), H(z));
    finish();
    (row.map(|x| x.0), scaled)
}

/// Whether the series arm answered, with `k` terms: its numbers, and no function evaluated.
fn in_series(sigma: Float, z: Float, k: usize) -> bool {
    let series = coefficients::series(H(sigma), H(z), k).map(|x| x.0);
    let (row, _) = coefficients::sim3_coeffs_scaled(H(sigma), H(z));
    finish();
    same(&row.map(|x| x.0), &series)
}

/// Whether the closed arm answered: it alone evaluates `E` and `M`, else `finish` stops.
fn in_closed(sigma: Float, z: Float) -> bool {
    let t = if 0.0 < sigma { -sigma } else { sigma };
    reads::sinc_a_b_d(z, &values());
    expect(Function::Exp, t, 0.2);
    expect(Function::ExpM1, t, -0.8);
    coefficients::sim3_coeffs_scaled(H(sigma), H(z));
    finish();
    true
}

fn at_zero() -> bool {
    let expected = all_at_width(
        [
            0x3ff0_0000_0000_0000,
            0x3fe0_0000_0000_0000,
            0x3fc5_5555_5555_5555,
            0x3fe0_0000_0000_0000,
            0x3fc5_5555_5555_5555,
            0x3fa5_5555_5555_5555,
            0xbfa5_5555_5555_5555,
            0xbf81_1111_1111_1111,
            0,
        ],
        [
            0x3f80_0000,
            0x3f00_0000,
            0x3e2a_aaab,
            0x3f00_0000,
            0x3e2a_aaab,
            0x3d2a_aaab,
            0xbd2a_aaab,
            0xbc08_8889,
            0,
        ],
    );
    let (row, flag) = scaled(0.0, 0.0);
    same(&row, &expected) && !flag
}

fn nan_from_k_29() -> bool {
    let at = |k| coefficients::series(H(0.0), H(0.0), k).map(|x| x.0.is_nan());
    at(28) == [false; 9] && at(29) == [false, false, false, false, false, false, false, true, false]
}

fn renormalized() -> bool {
    let mut q = Quat { w: H(2.0), x: H(0.0), y: H(0.0), z: H(0.0) };
    q.renormalize();
    same(&[q.w.0, q.x.0, q.y.0, q.z.0], &[-1.0, -0.0, -0.0, -0.0])
}

fn pure_translation() -> bool {
    let tau = Sim3Tangent {
        phi: Vector([H(0.0); 3]),
        rho: Vector([H(1.0), H(2.0), H(3.0)]),
        sigma: H(0.0),
    };
    let (r, t, _) = Sim3::exp(&tau).parts();
    let q = r.quat();
    same(&[q.w.0, q.x.0, q.y.0, q.z.0], &[1.0, 0.0, 0.0, 0.0])
        && same(&t.0.map(|x| x.0), &[1.0, 2.0, 3.0])
}

/// Says of each example whether it holds, and how many do not.
pub fn failed() -> usize {
    let [closed, below, second, first] = all_at_width(
        [
            0x3fff_b1ff_bc2a_9c8c,
            0x3fff_b1ff_bc2a_9c8b,
            0x3f0c_70e5_9cfc_9f1f,
            0x3f0c_70e5_9cfc_9f1e,
        ],
        [0x4017_c496, 0x4017_c495, 0x3a7c_e158, 0x3a7c_e157],
    );
    let (nan, [least, next, _, most]) = (Float::NAN, TERMS);
    let examples = [
        ("1 coefficients at zero", at_zero()),
        ("2 the most terms", in_series(0.0, below, most)),
        ("3 closed, not scaled", in_closed(0.0, closed) && !scaled(0.0, closed).1),
        (
            "4 the least terms, then more",
            in_series(0.0, first, least) && in_series(0.0, second, next),
        ),
        ("5 scaled", scaled(2.0, 0.0).1),
        ("6 not scaled", !scaled(-2.0, 0.0).1),
        ("7 NaN: closed, not scaled", in_closed(nan, 0.0) && !scaled(nan, 0.0).1),
        ("8 NaN from k = 29 in dv2", nan_from_k_29()),
        ("9 renormalising (2, 0, 0, 0)", renormalized()),
        ("10 pure translation", pure_translation()),
    ];
    for (name, holds) in examples {
        println!("{}example {name}", if holds { "ok      " } else { "FAILED  " });
    }
    examples.iter().filter(|(_, holds)| !holds).count()
}
