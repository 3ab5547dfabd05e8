//! A small generator of random bits, the same on every machine: xoshiro256**, seeded by splitmix64.

use helicoid_linalg::float::{Bits, Float};

/// The random bits that a number of this width leaves over.
pub(super) const SPARE: u32 = 64 - Bits::BITS;

pub struct Rng([u64; 4]);

impl Rng {
    pub fn new(seed: u64) -> Self {
        let mut x = seed;
        Self(core::array::from_fn(|_| {
            x = x.wrapping_add(0x9e37_79b9_7f4a_7c15);
            let y = (x ^ (x >> 30)).wrapping_mul(0xbf58_476d_1ce4_e5b9);
            let y = (y ^ (y >> 27)).wrapping_mul(0x94d0_49bb_1331_11eb);
            y ^ (y >> 31)
        }))
    }

    #[inline]
    pub fn bits(&mut self) -> u64 {
        let s = &mut self.0;
        let result = s[1].wrapping_mul(5).rotate_left(7).wrapping_mul(9);
        let t = s[1] << 17;
        s[2] ^= s[0];
        s[3] ^= s[1];
        s[1] ^= s[2];
        s[0] ^= s[3];
        s[2] ^= t;
        s[3] = s[3].rotate_left(45);
        result
    }

    /// A whole number below `n`.
    #[inline]
    pub fn below(&mut self, n: usize) -> usize {
        ((u128::from(self.bits()) * n as u128) >> 64) as usize
    }

    /// True once in `n` times.
    #[inline]
    pub fn one_in(&mut self, n: usize) -> bool {
        self.below(n) == 0
    }

    #[inline]
    pub fn pick<T: Copy>(&mut self, from: &[T]) -> T {
        from[self.below(from.len())]
    }

    /// A number from `low` on and below `high`, which rounding may reach.
    #[inline]
    pub fn between(&mut self, low: Float, high: Float) -> Float {
        let unit = (self.bits() >> 11) as f64 * (1.0 / (1u64 << 53) as f64);
        let (low, high) = (low as f64, high as f64);
        (low + (high - low) * unit) as Float
    }

    /// `x` or `-x`.
    #[inline]
    pub fn signed(&mut self, x: Float) -> Float {
        let sign = ((self.bits() & (1 << 63)) >> SPARE) as Bits;
        Float::from_bits(x.to_bits() ^ sign)
    }
}
