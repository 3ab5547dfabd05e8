//! How the processor rounds in this thread. The proofs are about IEEE 754 with rounding to nearest, nothing
//! flushed to zero and no exception that traps: bits 6 to 15 of the register MXCSR are 0x1f80. A shared
//! library linked with -ffast-math sets another when it is loaded, in the thread that loads it; so do
//! fesetround and feenableexcept of C. Then the answers have other bits. In debug builds every call of this
//! crate asks, and panics there; in release builds none does, so ask once in each thread, and after a library
//! was loaded, or compute inside of a [`Guard`].
//!
//! ```
//! sim3::environment::ask()?;
//! let proved = sim3::environment::enter(); // or: whatever the thread has
//! let root = sim3::root(2.0);
//! drop(proved);
//! # Ok::<(), sim3::environment::OtherEnvironment>(())
//! ```

#![forbid(unsafe_code)]

use crate::raw;
use std::{fmt, marker::PhantomData};

/// Of MXCSR: to nearest, nothing flushed, every exception masked.
const PROVED: u32 = 0x1f80;
const ROUNDING: [(u32, &str); 3] =
    [(0x2000, "rounds down"), (0x4000, "rounds up"), (0x6000, "rounds toward zero")];
const FLUSHES: [(u32, &str); 2] =
    [(0x8000, "flushes denormal results to zero"), (0x0040, "reads denormal numbers as zero")];
const TRAPS: [(u32, &str); 6] = [
    (0x0080, "traps invalid"),
    (0x0100, "traps denormal"),
    (0x0200, "traps division by zero"),
    (0x0400, "traps overflow"),
    (0x0800, "traps underflow"),
    (0x1000, "traps inexact"),
];

/// This thread does not compute as the proofs say.
#[derive(Clone, Copy, Debug, PartialEq, Eq)]
pub struct OtherEnvironment {
    /// The control bits of MXCSR.
    pub mxcsr: u32,
}

impl fmt::Display for OtherEnvironment {
    fn fmt(&self, f: &mut fmt::Formatter<'_>) -> fmt::Result {
        let differs = self.mxcsr ^ PROVED;
        let rounding = ROUNDING.iter().filter(|(bits, _)| differs & 0x6000 == *bits);
        let others = FLUSHES.iter().chain(&TRAPS).filter(|(bit, _)| differs & bit != 0);
        let words: Vec<&str> = rounding.chain(others).map(|(_, word)| *word).collect();
        write!(
            f,
            "sim3: this thread {} (MXCSR is {:04x}, and {PROVED:04x} is what is proved), as a library linked with \
             -ffast-math, fesetround or feenableexcept sets it; sim3::environment::enter() sets what is proved for a \
             scope",
            words.join(", "),
            self.mxcsr
        )
    }
}

impl std::error::Error for OtherEnvironment {}

/// Whether this thread computes as the proofs say, by a look at the register.
pub fn ask() -> Result<(), OtherEnvironment> {
    match raw::environment_differs() {
        0 => Ok(()),
        differs => Err(OtherEnvironment { mxcsr: PROVED ^ differs }),
    }
}

/// The same by the arithmetic itself: two products of the numbers for which true is proved. It does not see
/// traps, and ends in one where denormal, underflow or inexact traps.
pub fn probe() -> bool {
    raw::environment(&[4.75, 5e-324, 8.988465674311582e307]) == 1
}

/// In debug builds a panic where this thread does not compute as the proofs say.
#[inline(always)]
pub(crate) fn expect() {
    if cfg!(debug_assertions) {
        if let Err(other) = ask() {
            panic!("{other}");
        }
    }
}

/// The thread computes as the proofs say until this is dropped; then all of MXCSR is as it was, flags too.
/// It stays in its thread. It is for the calls: a compiler may move sums of the caller's own across its ends.
#[derive(Debug)]
#[must_use = "the environment is put back where it is dropped"]
pub struct Guard {
    was: u32,
    in_its_thread: PhantomData<*const ()>,
}

/// Sets the proved environment in this thread. Guards nest, the last one being dropped first.
pub fn enter() -> Guard {
    Guard { was: raw::environment_enter(), in_its_thread: PhantomData }
}

impl Drop for Guard {
    fn drop(&mut self) {
        raw::environment_leave(self.was);
    }
}
