//! Block Jacobians: the rest of `sim3.rs`.

use super::Part::*;
use super::{Entry, Parts, Reader, Writer};
use helicoid::{Jac, Sim3Jac};
use helicoid_linalg::handed::H;
use helicoid_linalg::{Matrix as Mat, StridedMut};

const TWO: Parts = &[("j", Block), ("j'", Block)];
const BLOCK_TANGENT: Parts = &[("j", Block), ("τ", Tangent)];

fn write_dense(r: &mut Reader<'_>, w: &mut Writer<'_>) -> Result<(), u8> {
    let mut dense = [H(0.0); 49];
    r.block().write_dense(&mut StridedMut::columns(&mut dense, 7, 7));
    Ok(w.scalars(&dense))
}

fn sandwich(r: &mut Reader<'_>, w: &mut Writer<'_>) -> Result<(), u8> {
    let (j, covariance): (_, Mat<H, 7, 7>) = (r.block(), r.matrix());
    Ok(w.matrix(&j.sandwich(&covariance)))
}

pub const ENTRIES: &[Entry] = &[
    Entry::new(110, "Sim3Jac identity", &[], &[("I", Block)], |_, w| {
        Ok(w.block(&Sim3Jac::identity()))
    }),
    Entry::new(111, "Sim3Jac mul", TWO, &[("j j'", Block)], |r, w| {
        Ok(w.block(&r.block().mul(&r.block())))
    }),
    Entry::new(112, "Sim3Jac neg", &[("j", Block)], &[("−j", Block)], |r, w| {
        Ok(w.block(&r.block().neg()))
    }),
    Entry::new(113, "Sim3Jac add", TWO, &[("j+j'", Block)], |r, w| {
        Ok(w.block(&r.block().add(&r.block())))
    }),
    Entry::new(114, "Sim3Jac scale", &[("j", Block), ("k", Number)], &[("j k", Block)], |r, w| {
        Ok(w.block(&r.block().scale(r.scalar())))
    }),
    Entry::new(115, "Sim3Jac apply", BLOCK_TANGENT, &[("j τ", Tangent)], |r, w| {
        Ok(w.tangent(&r.block().apply(&r.tangent())))
    }),
    Entry::new(116, "Sim3Jac apply_transpose", BLOCK_TANGENT, &[("jᵀ τ", Tangent)], |r, w| {
        Ok(w.tangent(&r.block().apply_transpose(&r.tangent())))
    }),
    Entry::new(117, "Sim3Jac write_dense", &[("j", Block)], &[("dense", Square)], write_dense),
    Entry::new(
        118,
        "Sim3Jac sandwich",
        &[("j", Block), ("Σ", Square)],
        &[("j Σ jᵀ", Square)],
        sandwich,
    ),
];
