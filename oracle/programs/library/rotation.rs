//! Quaternions and rotations: `quat.rs`, `so3.rs`.

use super::Part::*;
use super::{Entry, Reader, Writer};
use helicoid::judge::reads;
use helicoid::sim3::access::squared_angle;
use helicoid::{LieGroup, Quat, SO3Tangent, SO3};
use helicoid_linalg::handed::{expect, Function, H};
use helicoid_linalg::Vec3;

/// The division by the handed-in norm.
fn normalized(r: &mut Reader<'_>, w: &mut Writer<'_>) -> Result<(), u8> {
    let (q, root) = (r.quat(), r.number());
    expect(Function::Sqrt, q.norm_sq().0, root);
    Ok(w.quat(&Quat::from_wxyz_normalized(q.w, q.x, q.y, q.z)))
}

fn renormalize(r: &mut Reader<'_>, w: &mut Writer<'_>) -> Result<(), u8> {
    let mut q = r.quat();
    q.renormalize();
    Ok(w.quat(&q))
}

fn exp(r: &mut Reader<'_>, w: &mut Writer<'_>) -> Result<(), u8> {
    let (phi, v): (Vec3<H>, _) = (r.vector(), r.values());
    reads::exp_coeffs(squared_angle(phi).0, &v);
    Ok(w.quat(&SO3::exp(&SO3Tangent { phi }).quat()))
}

/// A rotation from its quaternion, unchecked, and a vector.
fn rotation_and_vector(r: &mut Reader<'_>) -> (SO3<H>, Vec3<H>) {
    (SO3::from_quat_unchecked(r.quat()), r.vector())
}

pub const ENTRIES: &[Entry] = &[
    Entry::new(
        30,
        "Quat from_wxyz_normalized",
        &[("q", Quat), ("root of norm_sq", Root)],
        &[("q", Quat)],
        normalized,
    ),
    Entry::new(31, "Quat from_jpl", &[("x y z w", Quat)], &[("q", Quat)], |r, w| {
        Ok(w.quat(&Quat::from_jpl(r.scalars())))
    }),
    Entry::new(32, "Quat conjugate", &[("q", Quat)], &[("q", Quat)], |r, w| {
        Ok(w.quat(&r.quat().conjugate()))
    }),
    Entry::new(33, "Quat norm_sq", &[("q", Quat)], &[("norm²", Number)], |r, w| {
        Ok(w.scalar(r.quat().norm_sq()))
    }),
    Entry::new(34, "Quat to_matrix", &[("q", Quat)], &[("R", Matrix)], |r, w| {
        Ok(w.matrix(&r.quat().to_matrix()))
    }),
    Entry::new(35, "Quat mul", &[("p", Quat), ("q", Quat)], &[("p q", Quat)], |r, w| {
        let (p, q) = (r.quat(), r.quat());
        Ok(w.quat(&(p * q)))
    }),
    Entry::new(36, "Quat renormalize", &[("q", Quat)], &[("q", Quat)], renormalize),
    Entry::new(37, "Quat from_xyzw", &[("x y z w", Quat)], &[("q", Quat)], |r, w| {
        Ok(w.quat(&Quat::from_xyzw(r.scalars())))
    }),
    Entry::new(38, "Quat to_xyzw", &[("q", Quat)], &[("x y z w", Quat)], |r, w| {
        Ok(w.scalars(&r.quat().to_xyzw()))
    }),
    Entry::new(40, "SO3 act", &[("q", Quat), ("v", Vector)], &[("R v", Vector)], |r, w| {
        let (rotation, v) = rotation_and_vector(r);
        Ok(w.vector(&rotation.act(v)))
    }),
    Entry::new(
        41,
        "SO3 inv_act",
        &[("q", Quat), ("v", Vector)],
        &[("R⁻¹ v", Vector)],
        |r, w| {
            let (rotation, v) = rotation_and_vector(r);
            Ok(w.vector(&rotation.inv_act(v)))
        },
    ),
    Entry::new(42, "SO3 exp", &[("φ", Phi), ("values", Values)], &[("q", Quat)], exp),
];
