//! The proved Sim(3) engine for Rust: poses with scale, lists of points, Jacobians. No other crates.
//!
//! ```
//! use sim3::{host, Tangent};
//!
//! let turn = Tangent([0.0, 0.0, std::f64::consts::FRAC_PI_2, 0.0, 0.0, 0.0, 2.0_f64.ln()]);
//! let x = sim3::exp(&turn, &host::tangent_values(&turn), 3, 7); // a quarter turn, doubled, from frame 3 to 7
//! let mut moved = [0.0; 3];
//! sim3::act_many(&x, host::up(&x), &[1.0, 0.0, 0.0], &mut moved)?;
//! assert!((moved[1] - 2.0).abs() < 1e-12);
//! # Ok::<(), sim3::Refusal>(())
//! ```
//!
//! Lists have types of their own with their sizes ([`Tangent`], [`Values`], [`Block`]), in the orders that
//! include/sim3.h states. The host's values (`values`, `up`, `down`, `ds`, `jl`, `jl_inv`) are the caller's;
//! [`host`] computes them. Every number is taken, NaN and infinities too. A [`Pose`] holds its two frames
//! beside its numbers: poses are joined only where the frames meet, and the action and the Jacobians read
//! none. What can be refused answers a [`Refusal`], which is a [`std::error::Error`]. The same functions
//! over singles stand in [`mod@f32`]. The thread of a call rounds to nearest, flushes nothing to zero and has
//! no exception that traps: [`environment`] asks and sets it.
//!
//! The build script finds the library libsim3.a: where `bindings/install` put this crate and it, in the
//! source tree by `bindings/build`, by the environment variable SIM3_LIB_DIR, or by pkg-config. Without
//! cargo:
//!
//! ```sh
//! bindings/build
//! rustc --edition 2021 -O --crate-type rlib -L target/bindings --out-dir target/bindings bindings/rust/sim3.rs
//! rustc --edition 2021 -O -L target/bindings --extern sim3 mine.rs
//! ```

#![deny(unsafe_code)] // and every module but `raw` forbids it

pub mod environment;
mod functions;
mod functions_f32;
pub mod host;
mod host_f32;
mod lists;
mod near;
mod raw;
mod refusal;
mod running;
mod sheets;
mod square_root;
mod tangents;

pub use functions::*;
pub use near::{Direction, Near};
pub use refusal::{Join, Refusal};
pub use running::{renormalize_all, Running};
pub use sheets::{Sheets, Shelved};
pub use square_root::{root, Root};
pub use tangents::{compare_tangents, sort_tangents};

/// The version of the library that is linked, which include/sim3.h has as SIM3_VERSION.
pub fn version() -> &'static str {
    raw::version().to_str().unwrap_or_default()
}

/// The arm that formed coefficients: 1, 2, 3 or 4 for a series of 6, 11, 14 or 19 terms, of 4, 7, 9 or 11
/// at f32, 5 for the closed forms; `ends` where v0 and w0 of the closed forms come from series of their
/// own.
#[derive(Clone, Copy, Debug, PartialEq, Eq)]
pub struct Arm {
    pub number: u8,
    pub ends: bool,
}

/// Panics for a refusal that the proofs rule out.
fn unexpected(refused: u32) -> ! {
    panic!("sim3: refusal {refused}: the archive does not belong to this crate; bindings/build makes it")
}

/// The engine at f32: the functions of this crate over singles. The answers are those of the engine at
/// binary32, and not the doubles' rounded. A NaN handed in is a NaN.
pub mod f32 {
    pub use crate::functions_f32::*;

    pub mod host {
        //! The host's function values for singles: those of [`crate::host`], computed in doubles, and
        //! each rounded once.
        pub use crate::host_f32::*;
    }
}
