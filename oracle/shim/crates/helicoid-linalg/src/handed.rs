//! The scalar of the judge: a number whose functions return numbers handed in.
//!
//! Before a call the judge lays down, in order, every function that the paper expects the call to
//! evaluate: which function, at which argument, and the number it is to return. Each evaluation
//! takes the next step. Another function, another argument, one evaluation too many or one too few
//! stops the program with a message. So a value is read in its own place only, even where two
//! places have the same function and the same argument.
//!
//! Arithmetic, comparison, absolute value and sign are those of `Float`, the width's number type.

use crate::float::{Float, PRECISION};
use crate::real::{Blend, Precision, Real, RotationJacobian};
use core::cell::Cell;
use core::ops::{Add, Div, Mul, Neg, Sub};

/// A number with handed-in functions.
#[derive(Clone, Copy, Debug)]
#[repr(transparent)]
pub struct H(pub Float);

/// What an evaluation can be of; `End` stands behind the last expected step.
#[derive(Clone, Copy, Debug, PartialEq, Eq)]
pub enum Function {
    Sqrt,
    SinCos,
    Sin,
    Exp,
    ExpM1,
    Jacobian(RotationJacobian),
    End,
}

/// One expected evaluation. A rotation Jacobian's argument and value stand in `Script::jacobian`.
#[derive(Clone, Copy)]
struct Step {
    function: Function,
    arg: Float,
    value: Float,
    /// The cosine of `SinCos`.
    second: Float,
}

const END: Step = Step { function: Function::End, arg: 0.0, value: 0.0, second: 0.0 };

/// No call of the library evaluates more functions than this.
const MOST_STEPS: usize = 16;

#[derive(Clone, Copy)]
struct Jacobian {
    phi: [Float; 3],
    cols: [[Float; 3]; 3],
}

const NO_JACOBIAN: Jacobian = Jacobian { phi: [0.0; 3], cols: [[0.0; 3]; 3] };

/// The expected evaluations of one call, and how many of them are done.
struct Script {
    steps: [Cell<Step>; MOST_STEPS + 1],
    len: Cell<usize>,
    next: Cell<usize>,
    /// For `J_l` and its inverse.
    jacobian: [Cell<Jacobian>; 2],
}

thread_local! {
    static SCRIPT: Script = const {
        Script {
            steps: [const { Cell::new(END) }; MOST_STEPS + 1],
            len: Cell::new(0),
            next: Cell::new(0),
            jacobian: [const { Cell::new(NO_JACOBIAN) }; 2],
        }
    };
}

/// The same number: the same bits, or both NaN.
#[inline(always)]
fn same(a: Float, b: Float) -> bool {
    a.to_bits() == b.to_bits() || (a.is_nan() && b.is_nan())
}

#[cold]
#[inline(never)]
fn stop(function: Function, arg: Float, step: Step) -> ! {
    panic!(
        "oracle: the Rust evaluates {function:?} at {arg:e}, where {:?} at {:e} is expected",
        step.function, step.arg
    );
}

#[cold]
#[inline(never)]
fn unread(step: Step) -> ! {
    panic!("oracle: the call ended and {:?} at {:e} was not evaluated", step.function, step.arg);
}

#[inline(always)]
fn push(step: Step) {
    SCRIPT.with(|s| {
        let n = s.len.get();
        assert!(n < MOST_STEPS, "oracle: too many expected evaluations");
        s.steps[n].set(step);
        s.steps[n + 1].set(END);
        s.len.set(n + 1);
    });
}

/// Expect `function` at `arg` next, and let it return `value`.
#[inline(always)]
pub fn expect(function: Function, arg: Float, value: Float) {
    push(Step { function, arg, value, second: 0.0 });
}

/// Expect sine and cosine of `arg` next.
#[inline(always)]
pub fn expect_sin_cos(arg: Float, sin: Float, cos: Float) {
    push(Step { function: Function::SinCos, arg, value: sin, second: cos });
}

/// Expect a rotation Jacobian at `phi` next, and let it be `cols`.
#[inline]
pub fn expect_jacobian(which: RotationJacobian, phi: [Float; 3], cols: [[Float; 3]; 3]) {
    SCRIPT.with(|s| s.jacobian[which as usize].set(Jacobian { phi, cols }));
    expect(Function::Jacobian(which), phi[0], 0.0);
}

/// The end of a call: everything expected has been evaluated. The script is empty again.
#[inline(always)]
pub fn finish() {
    SCRIPT.with(|s| {
        let next = s.next.get();
        if next != s.len.get() {
            unread(s.steps[next].get());
        }
    });
    clear();
}

/// Forgets what was expected.
#[inline(always)]
pub fn clear() {
    SCRIPT.with(|s| {
        s.steps[0].set(END);
        s.len.set(0);
        s.next.set(0);
    });
}

/// The next step, which must be `function` at `arg`.
#[inline(always)]
fn take(function: Function, arg: Float) -> (Float, Float) {
    SCRIPT.with(|s| {
        let next = s.next.get();
        let step = s.steps[next].get();
        if step.function != function || !same(step.arg, arg) {
            stop(function, arg, step);
        }
        s.next.set(next + 1);
        (step.value, step.second)
    })
}

impl Add for H {
    type Output = Self;
    #[inline(always)]
    fn add(self, o: Self) -> Self {
        H(self.0 + o.0)
    }
}

impl Sub for H {
    type Output = Self;
    #[inline(always)]
    fn sub(self, o: Self) -> Self {
        H(self.0 - o.0)
    }
}

impl Mul for H {
    type Output = Self;
    #[inline(always)]
    fn mul(self, o: Self) -> Self {
        H(self.0 * o.0)
    }
}

impl Div for H {
    type Output = Self;
    #[inline(always)]
    fn div(self, o: Self) -> Self {
        H(self.0 / o.0)
    }
}

impl Neg for H {
    type Output = Self;
    #[inline(always)]
    fn neg(self) -> Self {
        H(-self.0)
    }
}

impl Blend<H> for H {
    #[inline(always)]
    fn blend(m: bool, t: Self, f: Self) -> Self {
        Self::select(m, t, f)
    }
}

impl Real for H {
    type Mask = bool;
    const PRECISION: Precision = PRECISION;

    #[inline(always)]
    fn lit(x: f64) -> Self {
        H(x as Float)
    }
    #[inline(always)]
    fn lt(self, o: Self) -> bool {
        self.0 < o.0
    }
    #[inline(always)]
    fn le(self, o: Self) -> bool {
        self.0 <= o.0
    }
    #[inline(always)]
    fn select(m: bool, t: Self, f: Self) -> Self {
        if m {
            t
        } else {
            f
        }
    }
    #[inline(always)]
    fn branch<T: Blend<Self>>(m: bool, t: impl FnOnce() -> T, f: impl FnOnce() -> T) -> T {
        if m {
            t()
        } else {
            f()
        }
    }
    #[inline(always)]
    fn abs(self) -> Self {
        H(self.0.abs())
    }
    #[inline(always)]
    fn copysign(self, sign: Self) -> Self {
        H(self.0.copysign(sign.0))
    }
    #[inline(always)]
    fn sqrt(self) -> Self {
        H(take(Function::Sqrt, self.0).0)
    }
    #[inline(always)]
    fn sin(self) -> Self {
        H(take(Function::Sin, self.0).0)
    }
    #[inline(always)]
    fn sin_cos(self) -> (Self, Self) {
        let (sin, cos) = take(Function::SinCos, self.0);
        (H(sin), H(cos))
    }
    #[inline(always)]
    fn exp(self) -> Self {
        H(take(Function::Exp, self.0).0)
    }
    #[inline(always)]
    fn exp_m1(self) -> Self {
        H(take(Function::ExpM1, self.0).0)
    }
    #[cold]
    fn atan2(self, x: Self) -> Self {
        panic!(
            "oracle: the Rust evaluates atan2({:e}, {:e}), which the paper hands in nowhere",
            self.0, x.0
        );
    }

    #[inline]
    fn handed_jacobian(which: RotationJacobian, phi: [Self; 3]) -> Option<[[Self; 3]; 3]> {
        take(Function::Jacobian(which), phi[0].0);
        let given = SCRIPT.with(|s| s.jacobian[which as usize].get());
        for (a, b) in phi.iter().zip(given.phi) {
            assert!(same(a.0, b), "oracle: a rotation Jacobian at another φ than expected");
        }
        Some(given.cols.map(|col| col.map(H)))
    }
}
