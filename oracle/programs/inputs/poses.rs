//! Poses, tangents and blocks.

use super::{Mood, Source};
use helicoid_linalg::float::Float;

impl Source {
    /// A quaternion: a rotation, nearly one, the identity with any zeros, or any four numbers.
    pub fn quat(&mut self, mood: Mood) -> [Float; 4] {
        match self.rng.below(8) {
            0..=3 => self.unit_quat(1.0),
            4 => {
                let length = self.rng.between(0.999_999, 1.000_001);
                self.unit_quat(length)
            }
            5 => [1.0, 0.0, 0.0, 0.0].map(|x| self.rng.signed(x)),
            _ => self.numbers(mood),
        }
    }

    /// A quaternion of this length, in any direction.
    pub fn unit_quat(&mut self, length: Float) -> [Float; 4] {
        let q: [Float; 4] = core::array::from_fn(|_| self.rng.between(-1.0, 1.0));
        let norm = q.iter().map(|x| x * x).sum::<Float>().sqrt();
        q.map(|x| x / norm * length)
    }

    /// A log scale that stands alone.
    pub fn log_scale(&mut self, mood: Mood) -> Float {
        match self.rng.below(4) {
            0 => self.sigma_angle().0,
            1 => self.rng.between(-3.0, 3.0),
            _ => self.number(mood),
        }
    }

    /// Quaternion, translation, log scale.
    pub fn pose(&mut self) -> [Float; 8] {
        let mood = self.mood();
        let [w, x, y, z] = self.quat(mood);
        let [t0, t1, t2] = self.numbers(mood);
        [w, x, y, z, t0, t1, t2, self.log_scale(mood)]
    }

    /// Rotation vector, translation part, log scale; the squared angle is the second of
    /// `sigma_angle`, or what comes of any three numbers.
    pub fn tangent(&mut self) -> [Float; 7] {
        let mood = self.mood();
        let (sigma, z) = self.sigma_angle();
        let any = self.rng.one_in(if mood == Mood::Zeros { 2 } else { 10 });
        let [x, y, w] = if any { self.numbers(mood) } else { self.phi_with(z) };
        let [r0, r1, r2] = self.numbers(mood);
        [x, y, w, r0, r1, r2, sigma]
    }

    /// A 3×3 matrix column by column: any, near the identity, or with two equal columns.
    pub fn matrix(&mut self, mood: Mood) -> [Float; 9] {
        let m: [Float; 9] = self.numbers(mood);
        match self.rng.below(8) {
            0 => core::array::from_fn(|i| if i % 4 == 0 { 1.0 + m[i] / 16.0 } else { m[i] / 64.0 }),
            1 => core::array::from_fn(|i| if i < 3 { m[i + 3] } else { m[i] }),
            2 => core::array::from_fn(|i| if i % 4 == 0 { m[i] } else { self.rng.signed(0.0) }),
            _ => m,
        }
    }

    /// `a, b, c, f, e`; `e` is a zero once in sixteen times.
    pub fn block(&mut self) -> [Float; 31] {
        let mood = self.mood();
        let mut j = [0.0; 31];
        for part in j[..27].chunks_exact_mut(9) {
            part.copy_from_slice(&self.matrix(mood));
        }
        let f: [Float; 3] = self.numbers(mood);
        j[27..30].copy_from_slice(&f);
        j[30] = match self.rng.below(16) {
            0 => self.zero(),
            1 => self.special(),
            2..=5 => 1.0,
            _ => self.number(mood),
        };
        j
    }
}
