//! Shim of the group's traits. What a published file implements is declared here; the provided
//! bodies are those that the published files state in words: `J_l(τ) = J_r(−τ)`,
//! `x ⊕ τ = x Exp τ` on the right and `Exp τ x` on the left.

use crate::side::Side;
use core::any::Any;
use core::fmt::Debug;
use core::ops::Mul;
use helicoid_linalg::{Matrix, Real, RotationJacobian, StridedMut, Vector};

/// A tangent vector of `DOF` numbers.
pub trait Tangent<S: Real>: Copy + Debug {
    const DOF: usize;
    fn zero() -> Self;
    fn add(&self, o: &Self) -> Self;
    fn sub(&self, o: &Self) -> Self;
    fn neg(&self) -> Self;
    fn scale(&self, k: S) -> Self;
    fn dot_acc(&self, o: &Self, acc: S) -> S;
    fn write_dense(&self, out: &mut [S]);
    fn read_dense(src: &[S]) -> Self;
}

/// A Jacobian on the tangent `T`.
pub trait Jac<S: Real, T: Tangent<S>>: Copy + Debug + 'static {
    fn identity() -> Self;
    fn mul(&self, o: &Self) -> Self;
    fn inverse(&self) -> Self;
    fn neg(&self) -> Self;
    fn add(&self, o: &Self) -> Self;
    fn scale(&self, k: S) -> Self;
    fn apply(&self, t: &T) -> T;
    fn apply_transpose(&self, t: &T) -> T;
    fn write_dense(&self, out: &mut StridedMut<'_, S>);
    fn sandwich<const D: usize>(&self, cov: &Matrix<S, D, D>) -> Matrix<S, D, D>;
}

/// A Lie group over `S`.
pub trait LieGroup<S: Real>: Copy + Debug + Mul<Output = Self> {
    type Tangent: Tangent<S>;
    type Jac: Jac<S, Self::Tangent>;
    const DOF: usize;

    fn identity() -> Self;
    fn inverse(&self) -> Self;
    fn exp(tau: &Self::Tangent) -> Self;
    fn log(&self) -> Self::Tangent;
    fn adjoint(&self) -> Self::Jac;
    fn ad(tau: &Self::Tangent) -> Self::Jac;
    fn jr(tau: &Self::Tangent) -> Self::Jac;
    fn jr_inv(tau: &Self::Tangent) -> Self::Jac;

    /// `J_l(τ) = J_r(−τ)`; SO(3)'s may be handed in.
    #[inline]
    fn jl(tau: &Self::Tangent) -> Self::Jac {
        match handed::<S, Self>(RotationJacobian::Left, tau) {
            Some(j) => j,
            None => Self::jr(&tau.neg()),
        }
    }
    /// `J_l⁻¹(τ) = J_r⁻¹(−τ)`; SO(3)'s may be handed in.
    #[inline]
    fn jl_inv(tau: &Self::Tangent) -> Self::Jac {
        match handed::<S, Self>(RotationJacobian::LeftInverse, tau) {
            Some(j) => j,
            None => Self::jr_inv(&tau.neg()),
        }
    }

    #[inline]
    fn rplus(&self, tau: &Self::Tangent) -> Self {
        *self * Self::exp(tau)
    }
    #[inline]
    fn lplus(&self, tau: &Self::Tangent) -> Self {
        Self::exp(tau) * *self
    }
    #[inline]
    fn rminus(&self, base: &Self) -> Self::Tangent {
        (base.inverse() * *self).log()
    }
    #[inline]
    fn lminus(&self, base: &Self) -> Self::Tangent {
        (*self * base.inverse()).log()
    }
    #[inline]
    fn geodesic(x0: &Self, x1: &Self, t: S) -> Self {
        x0.rplus(&x1.rminus(x0).scale(t))
    }

    fn rplus_jacobians(&self, tau: &Self::Tangent) -> (Self::Jac, Self::Jac);
    fn lplus_jacobians(&self, tau: &Self::Tangent) -> (Self::Jac, Self::Jac);
    fn rminus_jacobians(&self, base: &Self) -> (Self::Jac, Self::Jac);
    fn lminus_jacobians(&self, base: &Self) -> (Self::Jac, Self::Jac);
    fn compose_jacobians<Sd: Side>(&self, rhs: &Self) -> (Self::Jac, Self::Jac);
    fn inverse_jacobian<Sd: Side>(&self) -> Self::Jac;
}

/// The Jacobian that the scalar hands in for SO(3), the one group of three numbers whose Jacobian
/// is a 3×3 matrix; `None` for another group and for a scalar that hands in nothing.
#[inline(always)]
fn handed<S: Real, G: LieGroup<S>>(which: RotationJacobian, tau: &G::Tangent) -> Option<G::Jac> {
    if G::DOF != 3 {
        return None;
    }
    let mut phi = [S::zero(); 3];
    tau.write_dense(&mut phi);
    let cols = S::handed_jacobian(which, phi)?;
    let matrix = Matrix::<S, 3, 3>::from_cols(cols.map(Vector));
    (&matrix as &dyn Any).downcast_ref::<G::Jac>().copied()
}

/// The group's and its tangent's dimension are one number.
pub(crate) const fn tie_dof<S: Real, G: LieGroup<S>>() {
    assert!(G::DOF == <G::Tangent as Tangent<S>>::DOF);
}
