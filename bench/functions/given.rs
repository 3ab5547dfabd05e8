//! The benchmark's scalar: a `Float`, `f64` or `f32`, whose functions return handed-in numbers,
//! without a check.
//!
//! The port takes its function values as arguments, so the Rust must not compute them either. Before a
//! call `set_values` stores the address of the ten values, and each function reads its own.
//! The three exponentials of a call (at −|σ|, σ and −σ) have one name, so they are one number: the
//! inputs give the port the same number in all three places. Arithmetic and comparison are `Float`'s.

use core::ops::{Add, Div, Mul, Neg, Sub};
use helicoid_linalg::float::{Float, PRECISION};
use helicoid_linalg::{Blend, Precision, Real, RotationJacobian};

/// A number with handed-in functions.
#[derive(Clone, Copy, Debug)]
#[repr(transparent)]
pub struct Given(pub Float);

/// Indices of the ten values: √z, sine and cosine of half the root, sine of the root, e^t, e^t − 1.
const ROOT: usize = 0;
const SIN_HALF: usize = 1;
const COS_HALF: usize = 2;
const SIN: usize = 3;
const EXP: usize = 4;
const EXP_M1: usize = 5;

/// The addresses of the values and of the exponential.
static mut VALUES: *const Float = core::ptr::null();
static mut EXPONENTIAL: *const Float = core::ptr::null();

/// Sets the ten values of a tangent.
#[inline(always)]
pub fn set_values(values: &[Float; 10]) {
    // SAFETY: one thread, and the values outlive the call that reads them.
    unsafe { VALUES = values.as_ptr() };
    set_exponential(&values[EXP]);
}

/// Sets only the exponential, for a pose.
#[inline(always)]
pub fn set_exponential(value: &Float) {
    // SAFETY: as in `set_values`.
    unsafe { EXPONENTIAL = value };
}

#[inline(always)]
fn value(place: usize) -> Given {
    // SAFETY: `set_values` was called with ten numbers that are still there.
    Given(unsafe { *VALUES.add(place) })
}

macro_rules! operator {
    ($name:ident $function:ident $sign:tt) => {
        impl $name for Given {
            type Output = Self;
            #[inline(always)]
            fn $function(self, o: Self) -> Self {
                Given(self.0 $sign o.0)
            }
        }
    };
}
operator!(Add add +);
operator!(Sub sub -);
operator!(Mul mul *);
operator!(Div div /);

impl Neg for Given {
    type Output = Self;
    #[inline(always)]
    fn neg(self) -> Self {
        Given(-self.0)
    }
}

impl Blend<Given> for Given {
    #[inline(always)]
    fn blend(m: bool, t: Self, f: Self) -> Self {
        Self::select(m, t, f)
    }
}

impl Real for Given {
    type Mask = bool;
    const PRECISION: Precision = PRECISION;

    #[inline(always)]
    fn lit(x: f64) -> Self {
        Given(x as Float)
    }
    #[inline(always)]
    fn lt(self, o: Self) -> bool {
        self.0 < o.0
    }
    #[inline(always)]
    fn le(self, o: Self) -> bool {
        self.0 <= o.0
    }
    #[inline(always)]
    fn select(m: bool, t: Self, f: Self) -> Self {
        Given(Float::select(m, t.0, f.0))
    }
    #[inline(always)]
    fn branch<T: Blend<Self>>(m: bool, t: impl FnOnce() -> T, f: impl FnOnce() -> T) -> T {
        if m {
            t()
        } else {
            f()
        }
    }
    #[inline(always)]
    fn abs(self) -> Self {
        Given(Float::abs(self.0))
    }
    #[inline(always)]
    fn copysign(self, sign: Self) -> Self {
        Given(Float::copysign(self.0, sign.0))
    }
    #[inline(always)]
    fn sqrt(self) -> Self {
        value(ROOT)
    }
    #[inline(always)]
    fn sin(self) -> Self {
        value(SIN)
    }
    #[inline(always)]
    fn sin_cos(self) -> (Self, Self) {
        (value(SIN_HALF), value(COS_HALF))
    }
    #[inline(always)]
    fn exp(self) -> Self {
        // SAFETY: `set_values` or `set_exponential` was called with a number that is still there.
        Given(unsafe { *EXPONENTIAL })
    }
    #[inline(always)]
    fn exp_m1(self) -> Self {
        value(EXP_M1)
    }
    #[cold]
    fn atan2(self, _: Self) -> Self {
        panic!("bench: the Rust evaluates an arc tangent, which no call hands in")
    }
    #[cold]
    fn handed_jacobian(_: RotationJacobian, _: [Self; 3]) -> Option<[[Self; 3]; 3]> {
        panic!("bench: the Rust asks for a rotation Jacobian, which no call hands in this way")
    }
}
