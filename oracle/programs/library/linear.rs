//! Vectors and 3×3 matrices: `vector.rs`, `matrix.rs` and the hat products.

use super::Part::*;
use super::{Entry, Reader, Writer};
use helicoid::sim3::access::{hat_mul, mul_hat};
use helicoid_linalg::handed::H;
use helicoid_linalg::{hat, Mat3, Matrix, Vec3};

/// A function of two vectors.
fn vectors(r: &mut Reader<'_>) -> (Vec3<H>, Vec3<H>) {
    (r.vector(), r.vector())
}

/// A function of two matrices.
fn matrices(r: &mut Reader<'_>) -> (Mat3<H>, Mat3<H>) {
    (r.matrix(), r.matrix())
}

/// A row or column, refused above 2.
fn index(r: &mut Reader<'_>) -> Result<usize, u8> {
    match r.word() {
        i @ 0..=2 => Ok(i as usize),
        _ => Err(3),
    }
}

fn get(r: &mut Reader<'_>, w: &mut Writer<'_>) -> Result<(), u8> {
    let (m, row, col): (Mat3<H>, _, _) = (r.matrix(), index(r), index(r));
    w.scalar(m.get(row?, col?));
    Ok(())
}

fn set(r: &mut Reader<'_>, w: &mut Writer<'_>) -> Result<(), u8> {
    let (mut m, row, col, x): (Mat3<H>, _, _, _) = (r.matrix(), index(r), index(r), r.scalar());
    m.set(row?, col?, x);
    w.matrix(&m);
    Ok(())
}

fn inverse_adj(r: &mut Reader<'_>, w: &mut Writer<'_>) -> Result<(), u8> {
    let m: Mat3<H> = r.matrix();
    let (inverse, det) = m.inverse_adj();
    w.matrix(&inverse);
    w.scalar(det);
    Ok(())
}

pub const ENTRIES: &[Entry] = &[
    Entry::new(1, "Vec3 scale", &[("v", Vector), ("s", Number)], &[("v s", Vector)], |r, w| {
        let (v, s): (Vec3<H>, H) = (r.vector(), r.scalar());
        Ok(w.vector(&v.scale(s)))
    }),
    Entry::new(2, "Vec3 dot", &[("u", Vector), ("v", Vector)], &[("u·v", Number)], |r, w| {
        let (u, v) = vectors(r);
        Ok(w.scalar(u.dot(v)))
    }),
    Entry::new(3, "Vec3 norm_sq", &[("v", Vector)], &[("v·v", Number)], |r, w| {
        let v: Vec3<H> = r.vector();
        Ok(w.scalar(v.norm_sq()))
    }),
    Entry::new(4, "Vec3 cross", &[("u", Vector), ("v", Vector)], &[("u×v", Vector)], |r, w| {
        let (u, v) = vectors(r);
        Ok(w.vector(&u.cross(v)))
    }),
    Entry::new(5, "Vec3 add", &[("u", Vector), ("v", Vector)], &[("u+v", Vector)], |r, w| {
        let (u, v) = vectors(r);
        Ok(w.vector(&(u + v)))
    }),
    Entry::new(6, "Vec3 sub", &[("u", Vector), ("v", Vector)], &[("u−v", Vector)], |r, w| {
        let (u, v) = vectors(r);
        Ok(w.vector(&(u - v)))
    }),
    Entry::new(7, "Vec3 neg", &[("v", Vector)], &[("−v", Vector)], |r, w| {
        let v: Vec3<H> = r.vector();
        Ok(w.vector(&-v))
    }),
    Entry::new(10, "Mat3 transpose", &[("m", Matrix)], &[("mᵀ", Matrix)], |r, w| {
        let m: Mat3<H> = r.matrix();
        Ok(w.matrix(&m.transpose()))
    }),
    Entry::new(11, "Mat3 scale", &[("m", Matrix), ("s", Number)], &[("m s", Matrix)], |r, w| {
        let (m, s): (Mat3<H>, H) = (r.matrix(), r.scalar());
        Ok(w.matrix(&m.scale(s)))
    }),
    Entry::new(12, "Mat3 identity", &[], &[("I", Matrix)], |_, w| Ok(w.matrix(&Mat3::identity()))),
    Entry::new(13, "Mat3 add", &[("a", Matrix), ("b", Matrix)], &[("a+b", Matrix)], |r, w| {
        let (a, b) = matrices(r);
        Ok(w.matrix(&(a + b)))
    }),
    Entry::new(14, "Mat3 sub", &[("a", Matrix), ("b", Matrix)], &[("a−b", Matrix)], |r, w| {
        let (a, b) = matrices(r);
        Ok(w.matrix(&(a - b)))
    }),
    Entry::new(15, "Mat3 neg", &[("m", Matrix)], &[("−m", Matrix)], |r, w| {
        let m: Mat3<H> = r.matrix();
        Ok(w.matrix(&-m))
    }),
    Entry::new(16, "Mat3 mul", &[("a", Matrix), ("b", Matrix)], &[("a b", Matrix)], |r, w| {
        let (a, b) = matrices(r);
        Ok(w.matrix(&(a * b)))
    }),
    Entry::new(17, "Mat3 mul_vec", &[("m", Matrix), ("v", Vector)], &[("m v", Vector)], |r, w| {
        let (m, v): (Mat3<H>, Vec3<H>) = (r.matrix(), r.vector());
        Ok(w.vector(&(m * v)))
    }),
    Entry::new(
        18,
        "Mat3 inverse_adj",
        &[("m", Matrix)],
        &[("inverse", Matrix), ("determinant", Number)],
        inverse_adj,
    ),
    Entry::new(19, "hat", &[("v", Vector)], &[("v^", Matrix)], |r, w| {
        Ok(w.matrix(&hat(r.vector())))
    }),
    Entry::new(20, "mul_hat", &[("a", Matrix), ("v", Vector)], &[("a v^", Matrix)], |r, w| {
        let (a, v): (Mat3<H>, Vec3<H>) = (r.matrix(), r.vector());
        Ok(w.matrix(&mul_hat(&a, v)))
    }),
    Entry::new(21, "hat_mul", &[("v", Vector), ("b", Matrix)], &[("v^ b", Matrix)], |r, w| {
        let (v, b): (Vec3<H>, Mat3<H>) = (r.vector(), r.matrix());
        Ok(w.matrix(&hat_mul(v, &b)))
    }),
    Entry::new(
        22,
        "Mat3 get",
        &[("m", Matrix), ("row", Index), ("column", Index)],
        &[("entry", Number)],
        get,
    )
    .refusing(&[3]),
    Entry::new(
        23,
        "Mat3 set",
        &[("m", Matrix), ("row", Index), ("column", Index), ("x", Number)],
        &[("m", Matrix)],
        set,
    )
    .refusing(&[3]),
    Entry::new(24, "Mat3 col", &[("m", Matrix), ("column", Index)], &[("m c", Vector)], |r, w| {
        let (m, c): (Mat3<H>, _) = (r.matrix(), index(r)?);
        Ok(w.vector(&m.col(c)))
    })
    .refusing(&[3]),
    Entry::new(25, "Mat3 row", &[("m", Matrix), ("row", Index)], &[("m r", Vector)], |r, w| {
        let (m, row): (Mat3<H>, _) = (r.matrix(), index(r)?);
        Ok(w.vector(&m.row(row)))
    })
    .refusing(&[3]),
    Entry::new(
        26,
        "Mat3 from_rows",
        &[("row 0", Vector), ("row 1", Vector), ("row 2", Vector)],
        &[("m", Matrix)],
        |r, w| {
            let m: Mat3<H> = Matrix::from_rows([r.vector(), r.vector(), r.vector()]);
            Ok(w.matrix(&m))
        },
    ),
];
