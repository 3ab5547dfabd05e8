//! Shim of the derivative number. `kernel.rs` names it in two functions that are outside the
//! paper's scope (`alpha`, `jr_inv_coeff_dz`), so it has to exist; every operation stops.

use crate::real::{Blend, Precision, Real};
use core::ops::{Add, Div, Mul, Neg, Sub};

/// A value and its derivatives.
#[derive(Clone, Copy, Debug)]
pub struct Dual<S, const N: usize> {
    pub v: S,
    pub d: [S; N],
}

#[cold]
fn outside() -> ! {
    panic!("oracle: derivative numbers are outside the scope");
}

impl<S: Real, const N: usize> Dual<S, N> {
    pub fn variable(_v: S, _i: usize) -> Self {
        outside()
    }
}

macro_rules! operator {
    ($name:ident $method:ident) => {
        impl<S: Real, const N: usize> $name for Dual<S, N> {
            type Output = Self;
            fn $method(self, _o: Self) -> Self {
                outside()
            }
        }
    };
}
operator!(Add add);
operator!(Sub sub);
operator!(Mul mul);
operator!(Div div);

impl<S: Real, const N: usize> Neg for Dual<S, N> {
    type Output = Self;
    fn neg(self) -> Self {
        outside()
    }
}

impl<S: Real, const N: usize> Blend<Dual<S, N>> for Dual<S, N> {
    fn blend(_m: S::Mask, _t: Self, _f: Self) -> Self {
        outside()
    }
}

impl<S: Real, const N: usize> Real for Dual<S, N> {
    type Mask = S::Mask;
    const PRECISION: Precision = S::PRECISION;

    fn lit(_x: f64) -> Self {
        outside()
    }
    fn lt(self, _o: Self) -> S::Mask {
        outside()
    }
    fn le(self, _o: Self) -> S::Mask {
        outside()
    }
    fn select(_m: S::Mask, _t: Self, _f: Self) -> Self {
        outside()
    }
    fn branch<T: Blend<Self>>(_m: S::Mask, _t: impl FnOnce() -> T, _f: impl FnOnce() -> T) -> T {
        outside()
    }
    fn abs(self) -> Self {
        outside()
    }
    fn copysign(self, _sign: Self) -> Self {
        outside()
    }
    fn sqrt(self) -> Self {
        outside()
    }
    fn sin(self) -> Self {
        outside()
    }
    fn sin_cos(self) -> (Self, Self) {
        outside()
    }
    fn exp(self) -> Self {
        outside()
    }
    fn exp_m1(self) -> Self {
        outside()
    }
    fn atan2(self, _x: Self) -> Self {
        outside()
    }
}
