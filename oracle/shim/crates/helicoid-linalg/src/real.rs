//! Shim of the scalar: what a number type offers, its comparison mask and the choice between two
//! values, with the plain `f64` and `f32`, whose functions are the host's.

use core::fmt::Debug;
use core::ops::{Add, Div, Mul, Neg, Sub};

/// The width whose tables and limits a scalar takes.
#[derive(Clone, Copy, Debug, PartialEq, Eq)]
pub enum Precision {
    F32,
    F64,
}

/// The answer of a comparison; here always a single truth value.
pub trait Mask: Copy {
    fn and(self, o: Self) -> Self;
    fn not(self) -> Self;
    fn any(self) -> bool;
    fn all(self) -> bool;
}

impl Mask for bool {
    #[inline(always)]
    fn and(self, o: Self) -> Self {
        self & o
    }
    #[inline(always)]
    fn not(self) -> Self {
        !self
    }
    #[inline(always)]
    fn any(self) -> bool {
        self
    }
    #[inline(always)]
    fn all(self) -> bool {
        self
    }
}

/// What a choice under a mask can be made between.
pub trait Blend<S: Real>: Sized {
    fn blend(m: S::Mask, t: Self, f: Self) -> Self;
}

impl<S: Real, T: Blend<S> + Copy, const N: usize> Blend<S> for [T; N] {
    #[inline(always)]
    fn blend(m: S::Mask, t: Self, f: Self) -> Self {
        core::array::from_fn(|i| T::blend(m, t[i], f[i]))
    }
}

/// Tuples choose member by member.
macro_rules! blend_tuple {
    ($($name:ident $i:tt),+) => {
        impl<S: Real, $($name: Blend<S>),+> Blend<S> for ($($name,)+) {
            #[inline(always)]
            fn blend(m: S::Mask, t: Self, f: Self) -> Self {
                ($($name::blend(m, t.$i, f.$i),)+)
            }
        }
    };
}
blend_tuple!(A 0, B 1);
blend_tuple!(A 0, B 1, C 2);
blend_tuple!(A 0, B 1, C 2, D 3);

/// Which of SO(3)'s two Jacobians a place asks for.
#[derive(Clone, Copy, Debug, PartialEq, Eq)]
pub enum RotationJacobian {
    /// `J_l(φ)`.
    Left,
    /// `J_l(φ)⁻¹`.
    LeftInverse,
}

/// A real scalar, as far as the published files ask for one.
pub trait Real:
    Copy
    + Debug
    + 'static
    + Blend<Self>
    + Add<Output = Self>
    + Sub<Output = Self>
    + Mul<Output = Self>
    + Div<Output = Self>
    + Neg<Output = Self>
{
    type Mask: Mask;
    const PRECISION: Precision;

    fn lit(x: f64) -> Self;
    #[inline(always)]
    fn zero() -> Self {
        Self::lit(0.0)
    }
    #[inline(always)]
    fn one() -> Self {
        Self::lit(1.0)
    }

    fn lt(self, o: Self) -> Self::Mask;
    fn le(self, o: Self) -> Self::Mask;
    fn select(m: Self::Mask, t: Self, f: Self) -> Self;
    /// One of two evaluations; the other is not begun.
    fn branch<T: Blend<Self>>(m: Self::Mask, t: impl FnOnce() -> T, f: impl FnOnce() -> T) -> T;

    fn abs(self) -> Self;
    fn copysign(self, sign: Self) -> Self;
    fn sqrt(self) -> Self;
    fn sin(self) -> Self;
    fn sin_cos(self) -> (Self, Self);
    fn exp(self) -> Self;
    fn exp_m1(self) -> Self;
    fn atan2(self, x: Self) -> Self;

    /// The shim's own: a rotation Jacobian at `φ` that is handed in instead of computed, by
    /// columns. A scalar that hands in nothing says `None`.
    #[inline(always)]
    fn handed_jacobian(_which: RotationJacobian, _phi: [Self; 3]) -> Option<[[Self; 3]; 3]> {
        None
    }
}

/// A host's number type as a scalar.
macro_rules! host_scalar {
    ($float:ident $width:ident) => {
        impl Blend<$float> for $float {
            #[inline(always)]
            fn blend(m: bool, t: Self, f: Self) -> Self {
                Self::select(m, t, f)
            }
        }

        impl Real for $float {
            type Mask = bool;
            const PRECISION: Precision = Precision::$width;

            #[inline(always)]
            fn lit(x: f64) -> Self {
                x as $float
            }
            #[inline(always)]
            fn lt(self, o: Self) -> bool {
                self < o
            }
            #[inline(always)]
            fn le(self, o: Self) -> bool {
                self <= o
            }
            #[inline(always)]
            fn select(m: bool, t: Self, f: Self) -> Self {
                if m {
                    t
                } else {
                    f
                }
            }
            #[inline(always)]
            fn branch<T: Blend<Self>>(m: bool, t: impl FnOnce() -> T, f: impl FnOnce() -> T) -> T {
                if m {
                    t()
                } else {
                    f()
                }
            }
            #[inline(always)]
            fn abs(self) -> Self {
                <$float>::abs(self)
            }
            #[inline(always)]
            fn copysign(self, sign: Self) -> Self {
                <$float>::copysign(self, sign)
            }
            #[inline(always)]
            fn sqrt(self) -> Self {
                <$float>::sqrt(self)
            }
            #[inline(always)]
            fn sin(self) -> Self {
                <$float>::sin(self)
            }
            #[inline(always)]
            fn sin_cos(self) -> (Self, Self) {
                (<$float>::sin(self), <$float>::cos(self))
            }
            #[inline(always)]
            fn exp(self) -> Self {
                <$float>::exp(self)
            }
            #[inline(always)]
            fn exp_m1(self) -> Self {
                <$float>::exp_m1(self)
            }
            #[inline(always)]
            fn atan2(self, x: Self) -> Self {
                <$float>::atan2(self, x)
            }
        }
    };
}
host_scalar!(f64 F64);
host_scalar!(f32 F32);
