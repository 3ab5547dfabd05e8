//! Circle functions and Sim(3) coefficients: `coeffs/kernel.rs`, `coeffs/mod.rs`,
//! `coeffs/sim3.rs`.

use super::Part::*;
use super::{Entry, Parts, Reader, Writer};
use helicoid::coefficients as c;
use helicoid::judge::{arms, reads, Values};
use helicoid_linalg::float::Float;
use helicoid_linalg::handed::H;

/// The most terms that a full series takes, and the series for v alone: past them the Rust reads a
/// NaN for a reciprocal, and there is nothing to compare.
const MOST_TERMS: u64 = 28;
const MOST_TERMS_V: u64 = 30;

const ANGLE: Parts = &[("z", Angle), ("values", Values)];
const SIGMA_ANGLE: Parts = &[("σ", Sigma), ("z", Angle), ("values", Values)];
const SERIES: Parts = &[("σ", Sigma), ("z", Angle), ("k", Count)];

/// A squared angle, refused below zero, and the values.
fn angle(r: &mut Reader<'_>) -> Result<(Float, Values), u8> {
    let (z, v) = (r.number(), r.values());
    if z < 0.0 {
        Err(1)
    } else {
        Ok((z, v))
    }
}

/// `σ`, a squared angle, refused below zero, and the values.
fn sigma_angle(r: &mut Reader<'_>) -> Result<(Float, Float, Values), u8> {
    let sigma = r.number();
    let (z, v) = angle(r)?;
    Ok((sigma, z, v))
}

/// A series entry's arguments: first the angle is refused, then the count.
fn series(r: &mut Reader<'_>, most: u64) -> Result<(H, H, usize), u8> {
    let (sigma, z, k) = (r.scalar(), r.scalar(), r.word());
    match (z.0 < 0.0, k > most) {
        (true, _) => Err(1),
        (_, true) => Err(4),
        _ => Ok((sigma, z, k as usize)),
    }
}

fn exp_coeffs(r: &mut Reader<'_>, w: &mut Writer<'_>) -> Result<(), u8> {
    let (z, v) = angle(r)?;
    reads::exp_coeffs(z, &v);
    let (k, cos_half) = c::exp_coeffs(H(z));
    Ok(w.scalars(&[k, cos_half]))
}

fn sinc_a_b_d(r: &mut Reader<'_>, w: &mut Writer<'_>) -> Result<(), u8> {
    let (z, v) = angle(r)?;
    reads::sinc_a_b_d(z, &v);
    let (sinc, a, b, d) = c::sinc_a_b_d(H(z));
    Ok(w.scalars(&[sinc, a, b, d]))
}

fn sinc_value(r: &mut Reader<'_>, w: &mut Writer<'_>) -> Result<(), u8> {
    let (z, v) = angle(r)?;
    reads::exp_coeffs(z, &v);
    Ok(w.scalar(helicoid::sinc_value(H(z))))
}

fn series_pair(r: &mut Reader<'_>, w: &mut Writer<'_>) -> Result<(), u8> {
    let (sigma, z, k) = series(r, MOST_TERMS)?;
    let [plus, minus] = c::series_pair(sigma, z, k);
    w.scalars(&plus);
    Ok(w.scalars(&minus))
}

fn sim3_coeffs(r: &mut Reader<'_>, w: &mut Writer<'_>) -> Result<(), u8> {
    let (sigma, z, v) = sigma_angle(r)?;
    reads::coefficients(sigma, z, &v);
    Ok(w.scalars(&c::sim3_coeffs(H(sigma), H(z))))
}

fn sim3_v(r: &mut Reader<'_>, w: &mut Writer<'_>) -> Result<(), u8> {
    let (sigma, z, v) = sigma_angle(r)?;
    reads::coefficients(sigma, z, &v);
    Ok(w.scalars(&c::sim3_v(H(sigma), H(z))))
}

fn sim3_v_scaled(r: &mut Reader<'_>, w: &mut Writer<'_>) -> Result<(), u8> {
    let (sigma, z, v) = sigma_angle(r)?;
    reads::scaled_coefficients(sigma, z, &v);
    let (row, scaled) = c::sim3_v_scaled(H(sigma), H(z));
    w.scalars(&row);
    Ok(w.flag(scaled))
}

fn sim3_coeffs_scaled(r: &mut Reader<'_>, w: &mut Writer<'_>) -> Result<(), u8> {
    let (sigma, z, v) = sigma_angle(r)?;
    reads::scaled_coefficients(sigma, z, &v);
    let (row, scaled) = c::sim3_coeffs_scaled(H(sigma), H(z));
    w.scalars(&row);
    Ok(w.flag(scaled))
}

/// The arm and its ends by the paper's limits, and the Rust's coefficients.
fn sim3_coeffs_armed(r: &mut Reader<'_>, w: &mut Writer<'_>) -> Result<(), u8> {
    let (sigma, z, v) = sigma_angle(r)?;
    let [arm, ends] = arms::told(sigma, z);
    w.scalars(&[H(arm.into())]);
    w.flag(ends == 1);
    reads::scaled_coefficients(sigma, z, &v);
    let (row, scaled) = c::sim3_coeffs_scaled(H(sigma), H(z));
    w.scalars(&row);
    Ok(w.flag(scaled))
}

fn sim3_coeffs_scaled_pair(r: &mut Reader<'_>, w: &mut Writer<'_>) -> Result<(), u8> {
    let (sigma, z, v) = sigma_angle(r)?;
    reads::scaled_pair(sigma, z, &v);
    for (row, scaled) in c::sim3_coeffs_scaled_pair(H(sigma), H(z)) {
        w.scalars(&row);
        w.flag(scaled);
    }
    Ok(())
}

/// `unscale` reads `σ` through its exponential only, so any `σ` will do: here 0.
fn unscale(r: &mut Reader<'_>, w: &mut Writer<'_>) -> Result<(), u8> {
    let (row, up, scaled) = (r.scalars(), r.number(), r.number() != 0.0);
    if scaled {
        reads::exponential_at(0.0, up);
    }
    Ok(w.scalars(&c::unscale(row, H(0.0), scaled)))
}

pub const ENTRIES: &[Entry] = &[
    Entry::new(50, "exp_coeffs", ANGLE, &[("k", Number), ("cos θ/2", Number)], exp_coeffs)
        .refusing(&[1]),
    Entry::new(
        51,
        "sinc_a_b_d",
        ANGLE,
        &[("sinc", Number), ("a", Number), ("b", Number), ("d", Number)],
        sinc_a_b_d,
    )
    .refusing(&[1]),
    Entry::new(52, "sinc_value", ANGLE, &[("sinc", Number)], sinc_value).refusing(&[1]),
    Entry::new(60, "series, full", SERIES, &[("coefficients", Coefficients)], |r, w| {
        let (sigma, z, k) = series(r, MOST_TERMS)?;
        Ok(w.scalars(&c::series(sigma, z, k)))
    })
    .refusing(&[1, 4]),
    Entry::new(61, "series, v alone", SERIES, &[("v, χΔ", Coefficients4)], |r, w| {
        let (sigma, z, k) = series(r, MOST_TERMS_V)?;
        Ok(w.scalars(&c::series_v(sigma, z, k)))
    })
    .refusing(&[1, 4]),
    Entry::new(
        62,
        "series, full pair",
        SERIES,
        &[("at σ", Coefficients), ("at −σ", Coefficients)],
        series_pair,
    )
    .refusing(&[1, 4]),
    Entry::new(63, "sim3_coeffs", SIGMA_ANGLE, &[("coefficients", Coefficients)], sim3_coeffs)
        .refusing(&[1]),
    Entry::new(64, "sim3_v", SIGMA_ANGLE, &[("v, χΔ", Coefficients4)], sim3_v).refusing(&[1]),
    Entry::new(65, "sim3_v_scaled", SIGMA_ANGLE, &[("v", Vector), ("scaled", Flag)], sim3_v_scaled)
        .refusing(&[1]),
    Entry::new(
        66,
        "unscale",
        &[("coefficients", Coefficients), ("up", Exponential), ("scaled", Flag)],
        &[("coefficients", Coefficients)],
        unscale,
    ),
    Entry::new(
        67,
        "sim3_coeffs_scaled",
        SIGMA_ANGLE,
        &[("coefficients", Coefficients), ("scaled", Flag)],
        sim3_coeffs_scaled,
    )
    .refusing(&[1]),
    Entry::new(
        68,
        "sim3_coeffs_scaled_pair",
        SIGMA_ANGLE,
        &[("at σ", Coefficients), ("scaled", Flag), ("at −σ", Coefficients), ("scaled", Flag)],
        sim3_coeffs_scaled_pair,
    )
    .refusing(&[1]),
    Entry::new(
        69,
        "sim3_coeffs_armed",
        SIGMA_ANGLE,
        &[("arm", Number), ("ends", Flag), ("coefficients", Coefficients), ("scaled", Flag)],
        sim3_coeffs_armed,
    )
    .refusing(&[1]),
];
