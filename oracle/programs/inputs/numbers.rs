//! Single numbers.

use super::rng::SPARE;
use super::Source;
use helicoid_linalg::float::{all_at_width, by_width, Bits, Float};

/// The bits of a fraction, and of the sign and the exponent before it.
const FRACTION: u32 = Float::MANTISSA_DIGITS - 1;
const BEFORE_FRACTION: u32 = Bits::BITS - FRACTION;

/// What the numbers of one record are like.
#[derive(Clone, Copy, Debug, PartialEq, Eq)]
pub enum Mood {
    /// Of ordinary size, every bit of the fraction random.
    Ordinary,
    /// Ordinary, and here and there a special one.
    Sprinkled,
    /// Of any size.
    Wide,
    /// With products that are subnormal.
    Small,
    /// Zeros of either sign and ones, and here and there an ordinary one.
    Zeros,
    /// Special ones.
    Special,
    /// Any bits.
    Any,
}

use Mood::*;

/// Zeros, infinities, NaN patterns of both signs and several payloads, the ends of the subnormal
/// and normal ranges, numbers whose squares leave the range, and ones with their neighbours.
const SPECIAL: [Float; 28] = all_at_width(
    [
        0x0000_0000_0000_0000,
        0x7ff0_0000_0000_0000,
        0x7ff8_0000_0000_0000,
        0x7ff0_0000_0000_0001,
        0x7ff4_dead_beef_0001,
        0x7ff8_0000_0000_002a,
        0x7fff_ffff_ffff_ffff,
        0x0000_0000_0000_0001,
        0x0000_0000_0000_0003,
        0x000f_ffff_ffff_ffff,
        0x0010_0000_0000_0000,
        0x0010_0000_0000_0001,
        0x0020_0000_0000_0000,
        0x7fef_ffff_ffff_ffff,
        0x7fe0_0000_0000_0000,
        0x5fef_ffff_ffff_ffff,
        0x5ff0_0000_0000_0000,
        0x1ff0_0000_0000_0000,
        0x1e50_0000_0000_0000,
        0x3cb0_0000_0000_0000,
        0x3ca0_0000_0000_0000,
        0x3ff0_0000_0000_0000,
        0x3ff0_0000_0000_0001,
        0x3fef_ffff_ffff_ffff,
        0x3fe0_0000_0000_0000,
        0x4000_0000_0000_0000,
        0x4008_0000_0000_0000,
        0x4340_0000_0000_0000,
    ],
    [
        0x0000_0000,
        0x7f80_0000,
        0x7fc0_0000,
        0x7f80_0001,
        0x7fa5_beef,
        0x7fc0_002a,
        0x7fff_ffff,
        0x0000_0001,
        0x0000_0003,
        0x007f_ffff,
        0x0080_0000,
        0x0080_0001,
        0x0100_0000,
        0x7f7f_ffff,
        0x7f00_0000,
        0x5f7f_ffff,
        0x5f80_0000,
        0x1f80_0000,
        0x1a80_0000,
        0x3400_0000,
        0x3380_0000,
        0x3f80_0000,
        0x3f80_0001,
        0x3f7f_ffff,
        0x3f00_0000,
        0x4000_0000,
        0x4040_0000,
        0x4b80_0000,
    ],
);

/// `x` moved by so many neighbouring numbers; `x` is positive and stays so.
pub fn nudge(x: Float, steps: i32) -> Float {
    Float::from_bits(x.to_bits().wrapping_add_signed(steps.into()))
}

impl Source {
    pub fn mood(&mut self) -> Mood {
        match self.rng.below(20) {
            0..=7 => Ordinary,
            8..=11 => Sprinkled,
            12..=13 => Wide,
            14 => Small,
            15..=16 => Zeros,
            17 => Special,
            _ => Any,
        }
    }

    /// Between 1/8 and 16, of either sign.
    pub fn ordinary(&mut self) -> Float {
        self.with_exponent(by_width(1020, 124), 7)
    }

    pub fn special(&mut self) -> Float {
        if self.rng.one_in(4) {
            return self.edge();
        }
        let x = self.rng.pick(&SPECIAL);
        self.rng.signed(x)
    }

    /// A number at an edge of the range: subnormal, near the greatest, with a subnormal square, or
    /// with one that overflows.
    fn edge(&mut self) -> Float {
        match self.rng.below(4) {
            0 => self.with_exponent(0, 3),
            1 => self.with_exponent(by_width(2042, 250), 5),
            2 => self.with_exponent(by_width(1530, 186), 8),
            _ => self.with_small_square(),
        }
    }

    /// A number whose square is subnormal or nearly so.
    pub fn with_small_square(&mut self) -> Float {
        self.with_exponent(by_width(484, 51), by_width(30, 16))
    }

    /// A number whose square is near the greatest number, on either side of overflow.
    pub fn with_large_square(&mut self) -> Float {
        let steps = self.rng.below(5) as i32 - 2;
        let edge = nudge(Float::MAX.sqrt(), steps);
        match self.rng.below(3) {
            0 => self.with_exponent(by_width(1533, 189), 4),
            _ => self.rng.signed(edge),
        }
    }

    /// A number with any fraction and sign and one of `how_many` exponents from `lowest` on.
    fn with_exponent(&mut self, lowest: Bits, how_many: usize) -> Float {
        let exponent = lowest + self.rng.below(how_many) as Bits;
        let fraction = (self.rng.bits() >> (SPARE + BEFORE_FRACTION)) as Bits;
        let x = Float::from_bits(fraction | (exponent << FRACTION));
        self.rng.signed(x)
    }

    /// As many random bits as a number has.
    fn random_bits(&mut self) -> Bits {
        (self.rng.bits() >> SPARE) as Bits
    }

    pub fn zero(&mut self) -> Float {
        self.rng.signed(0.0)
    }

    pub fn number(&mut self, mood: Mood) -> Float {
        match mood {
            Ordinary => self.ordinary(),
            Sprinkled if self.rng.one_in(8) => self.special(),
            Sprinkled => self.ordinary(),
            Wide => Float::from_bits(self.random_bits() & !(1 << FRACTION)),
            Small => self.with_small_square(),
            Zeros => match self.rng.below(8) {
                0..=4 => self.zero(),
                5..=6 => self.rng.signed(1.0),
                _ => self.ordinary(),
            },
            Special => self.special(),
            Any => Float::from_bits(self.random_bits()),
        }
    }

    pub fn numbers<const N: usize>(&mut self, mood: Mood) -> [Float; N] {
        core::array::from_fn(|_| self.number(mood))
    }
}
