//! Function values and rotation Jacobians, belonging to a tangent or to nothing.

use super::numbers::nudge;
use super::{Mood, Source};
use helicoid::judge::Values;
use helicoid::{LieGroup, SO3Tangent, SO3};
use helicoid_linalg::float::Float;
use helicoid_linalg::{Mat3, Vector};

impl Source {
    /// Ten values for a log scale and a squared angle.
    pub fn values(&mut self, sigma: Float, z: Float) -> [Float; 10] {
        let host = Values::of_host(sigma, z).to_array();
        match self.rng.below(10) {
            0..=3 => host,
            4 => self.disturbed(host),
            5..=6 => self.numbers(Mood::Ordinary),
            7 => self.numbers(Mood::Sprinkled),
            _ => {
                let mood = self.mood();
                self.numbers(mood)
            }
        }
    }

    /// The host's values, one of them moved to a neighbour or replaced.
    fn disturbed(&mut self, mut host: [Float; 10]) -> [Float; 10] {
        let x = &mut host[self.rng.below(10)];
        *x = match self.rng.below(3) {
            0 if x.is_finite() && *x != 0.0 => nudge(*x, self.rng.pick(&[-1, 1])),
            1 => self.with_small_square(),
            _ => self.special(),
        };
        host
    }

    /// The exponential of a number, or one that belongs to nothing.
    pub fn exponential(&mut self, arg: Float) -> Float {
        match self.rng.below(8) {
            0..=3 => arg.exp(),
            4..=5 => self.ordinary(),
            6 => self.number(Mood::Sprinkled),
            _ => {
                let mood = self.mood();
                self.number(mood)
            }
        }
    }

    /// A root, of the number or of nothing.
    pub fn root(&mut self, of: Float) -> Float {
        if self.rng.one_in(2) {
            of.sqrt()
        } else {
            self.number(Mood::Sprinkled)
        }
    }

    /// SO(3)'s left Jacobian and its inverse at `phi`, column by column, or any two matrices.
    pub fn rotation_jacobians(&mut self, phi: [Float; 3]) -> ([Float; 9], [Float; 9]) {
        if self.rng.one_in(2) {
            return host_jacobians(phi);
        }
        let mood = self.mood();
        (self.numbers(mood), self.numbers(mood))
    }
}

/// SO(3)'s left Jacobian and its inverse by the Rust with the host's functions.
pub fn host_jacobians(phi: [Float; 3]) -> ([Float; 9], [Float; 9]) {
    let t = SO3Tangent { phi: Vector(phi) };
    (columns(&SO3::jl(&t)), columns(&SO3::jl_inv(&t)))
}

fn columns(m: &Mat3<Float>) -> [Float; 9] {
    core::array::from_fn(|i| m.get(i % 3, i / 3))
}
