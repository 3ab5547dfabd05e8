//! Shim of `helicoid`'s root: it declares the published files and the absent ones that they name,
//! and `judge`, which calls the published functions on plain numbers.

#![allow(dead_code, unused_imports)]

mod coeffs;
pub mod judge;
mod quat;
mod side;
pub mod sim3;
pub mod so3;
mod traits;

pub use coeffs::sweep as coefficients;
pub use coeffs::{sinc, sinc_value};
pub use quat::Quat;
pub use side::{Left, Right, Side};
pub use sim3::{Sim3, Sim3Jac, Sim3Tangent};
pub use so3::{SO3Tangent, SO3};
pub use traits::{Jac, LieGroup, Tangent};
