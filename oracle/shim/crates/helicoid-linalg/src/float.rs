//! The width at which the judge runs: `f64`, or `f32` where the crate is built with `--cfg single`.
//! The published files are generic over their scalar and are the same at both.

#[cfg(not(single))]
mod width {
    pub type Float = f64;
    pub type Bits = u64;
    pub const PRECISION: crate::Precision = crate::Precision::F64;

    pub const fn at_width(double: u64, _single: u32) -> Float {
        Float::from_bits(double)
    }
}

#[cfg(single)]
mod width {
    pub type Float = f32;
    pub type Bits = u32;
    pub const PRECISION: crate::Precision = crate::Precision::F32;

    pub const fn at_width(_double: u64, single: u32) -> Float {
        Float::from_bits(single)
    }
}

/// The number type of this width, its bits as a whole number, and which width it is; and the one of
/// two bit patterns that belongs to this width.
pub use width::{at_width, Bits, Float, PRECISION};

/// Whether this is the narrow width.
pub const SINGLE: bool = size_of::<Float>() == 4;

/// Bit patterns of this width as numbers.
pub const fn all_at_width<const N: usize>(double: [u64; N], single: [u32; N]) -> [Float; N] {
    let (mut all, mut i) = ([0.0; N], 0);
    while i < N {
        all[i] = at_width(double[i], single[i]);
        i += 1;
    }
    all
}

/// The one of two that belongs to this width.
pub const fn by_width<T: Copy>(double: T, single: T) -> T {
    if SINGLE {
        single
    } else {
        double
    }
}
