//! Whole records: of the job program's marks, and of the library's functions.

use super::frames::{part, put_frames};
use super::values::host_jacobians;
use super::{Mood, Source};
use crate::library::{Entry, Part};
use helicoid::judge::layout::WIDTH;
use helicoid::judge::marks::MARKS;
use helicoid::judge::Values;
use helicoid_linalg::float::{Float, SINGLE};

/// A mark's two letters as they stand in a file: small at the narrow width.
pub type Letters = [u8; 2];

/// The marks of this width in the order of the job table, the requested ones behind it.
pub fn marks() -> Vec<Letters> {
    MARKS.iter().map(|mark| mark.letters).collect()
}

/// `(x² + y²) + z²`.
pub fn squared_angle([x, y, z]: [Float; 3]) -> Float {
    (x * x + y * y) + z * z
}

pub(super) fn put(out: &mut Vec<u8>, numbers: &[Float]) {
    numbers.iter().for_each(|x| out.extend_from_slice(&x.to_bits().to_le_bytes()));
}

fn phi_of(tangent: &[Float; 7]) -> [Float; 3] {
    [tangent[0], tangent[1], tangent[2]]
}

impl Source {
    /// An adversarial record of a mark, its two letters included.
    pub fn job_record(&mut self, letters: Letters, out: &mut Vec<u8>) {
        out.extend_from_slice(&letters);
        let mark = &letters.map(|x| x.to_ascii_uppercase());
        match mark {
            b"EX" | b"PA" => {
                let tangent = self.tangent();
                put(out, &tangent);
                put(out, &self.values(tangent[6], squared_angle(phi_of(&tangent))));
                if mark == b"PA" {
                    let (jl, inverse) = self.rotation_jacobians(phi_of(&tangent));
                    put(out, &jl);
                    put(out, &inverse);
                } else {
                    put_frames(out, self.frames());
                }
            }
            b"CO" | b"AR" => {
                let by_arm = mark == b"AR" || SINGLE && self.rng.one_in(4);
                let (sigma, z) = if by_arm { self.arm_angle() } else { self.sigma_angle() };
                let z = if self.rng.one_in(16) { -z } else { z };
                put(out, &[sigma, z]);
                put(out, &self.values(sigma, z.abs()));
            }
            b"JI" => put(out, &self.block()),
            _ => self.pose_record(mark, out),
        }
    }

    /// A record that would be refused, by 1, 2 or 9, if its mark can be.
    pub fn refused_record(&mut self, letters: Letters, out: &mut Vec<u8>) {
        let start = out.len();
        self.job_record(letters, out);
        let numbers = start + 2;
        match &letters.map(|x| x.to_ascii_uppercase()) {
            b"CO" | b"AR" => {
                out[numbers + WIDTH..numbers + 2 * WIDTH].copy_from_slice(&Float::to_le_bytes(-1.0))
            }
            b"JI" => out[numbers + 30 * WIDTH..].fill(0),
            b"MU" => part(&mut out[start..]),
            _ => {}
        }
    }

    /// What stands in a record that begins with a pose.
    fn pose_record(&mut self, mark: &[u8; 2], out: &mut Vec<u8>) {
        let (pose, mood) = (self.pose(), self.mood());
        put(out, &pose);
        if mark == b"MU" {
            let [left, right] = self.product_frames();
            put_frames(out, left);
            put(out, &self.pose());
            put_frames(out, right);
        } else {
            put_frames(out, self.frames());
        }
        let arg = if mark == b"IN" { -pose[7] } else { pose[7] };
        put(out, &[self.exponential(arg)]);
        if mark == b"AC" {
            put(out, &self.numbers::<3>(mood));
        }
    }

    /// A well-formed record of ordinary numbers with the host's values, for timing. `arm` is 1 to
    /// 5 for the arm of the coefficients, 0 for a mixture.
    pub fn good_record(&mut self, letters: Letters, arm: usize, out: &mut Vec<u8>) {
        out.extend_from_slice(&letters);
        let mark = &letters.map(|x| x.to_ascii_uppercase());
        let (sigma, z) = match arm {
            0 => (self.rng.between(-2.0, 2.0), self.rng.between(0.0, 9.0)),
            _ => self.in_arm(arm),
        };
        let phi = self.phi_with(z);
        let rho = self.numbers::<3>(Mood::Ordinary);
        let angle = if matches!(mark, b"CO" | b"AR") { z } else { squared_angle(phi) };
        let values = Values::of_host(sigma, angle).to_array();
        match mark {
            b"CO" | b"AR" => put(out, &[sigma, z]),
            b"EX" | b"PA" => {
                put(out, &phi);
                put(out, &rho);
                put(out, &[sigma]);
            }
            _ => return self.good_pose_record(mark, sigma, out),
        }
        put(out, &values);
        if mark == b"PA" {
            let (jl, inverse) = host_jacobians(phi);
            put(out, &jl);
            put(out, &inverse);
        } else if mark == b"EX" {
            put_frames(out, self.frames());
        }
    }

    fn good_pose_record(&mut self, mark: &[u8; 2], sigma: Float, out: &mut Vec<u8>) {
        if mark == b"JI" {
            put(out, &self.numbers::<31>(Mood::Ordinary));
            return;
        }
        let frames = self.meeting_frames();
        for frames in &frames[..if mark == b"MU" { 2 } else { 1 }] {
            put(out, &self.unit_quat(1.0));
            put(out, &self.numbers::<3>(Mood::Ordinary));
            put(out, &[sigma]);
            put_frames(out, *frames);
        }
        put(out, &[if mark == b"IN" { (-sigma).exp() } else { sigma.exp() }]);
        if mark == b"AC" {
            put(out, &self.numbers::<3>(Mood::Ordinary));
        }
    }

    /// An adversarial record of a library function, its number included.
    pub fn library_record(&mut self, e: &Entry, out: &mut Vec<u8>) {
        out.push(e.id);
        let mut known = Known { mood: self.mood(), ..Known::default() };
        for (_, part) in e.input {
            self.library_part(*part, &mut known, out);
        }
    }

    fn library_part(&mut self, part: Part, known: &mut Known, out: &mut Vec<u8>) {
        let mood = known.mood;
        match part {
            Part::Number => put(out, &[self.number(mood)]),
            Part::Flag => put(out, &[self.rng.below(2) as Float]),
            Part::Count => out.extend_from_slice(&self.term_count().to_le_bytes()),
            Part::Index => out.extend_from_slice(&self.index().to_le_bytes()),
            Part::Vector => put(out, &self.numbers::<3>(mood)),
            Part::Matrix => put(out, &self.matrix(mood)),
            Part::Quat => {
                let q = self.quat(mood);
                known.norm_sq = q.iter().fold(0.0, |sum, x| sum + x * x);
                put(out, &q);
            }
            Part::Root => put(out, &[self.root(known.norm_sq)]),
            Part::Pose => {
                let pose = self.pose();
                known.log_scales = [known.log_scales[1], pose[7]];
                put(out, &pose);
            }
            Part::Exponential => {
                let [first, last] = known.log_scales;
                let arg = self.rng.pick(&[last, -last, first - last, first]);
                put(out, &[self.exponential(arg)]);
            }
            Part::List => self.point_list(out),
            Part::Square => put(out, &self.numbers::<49>(mood)),
            Part::Block => put(out, &self.block()),
            Part::Coefficients => put(out, &self.numbers::<9>(mood)),
            _ => self.tangent_part(part, known, out),
        }
    }

    /// A tangent, a log scale or an angle, and what belongs to it.
    fn tangent_part(&mut self, part: Part, known: &mut Known, out: &mut Vec<u8>) {
        match part {
            Part::Sigma => {
                let (sigma, z) = self.sigma_angle();
                (known.sigma, known.z) = (sigma, Some(z));
                put(out, &[sigma]);
            }
            Part::Angle => {
                let z = known.z.unwrap_or_else(|| self.lone_angle());
                let z = if self.rng.one_in(32) { -z } else { z };
                known.z = Some(z.abs());
                put(out, &[z]);
            }
            Part::Phi => {
                let z = self.lone_angle();
                known.know_phi(self.phi_with(z));
                put(out, &known.phi);
            }
            Part::Tangent => {
                let tangent = self.tangent();
                known.know_phi(phi_of(&tangent));
                known.sigma = tangent[6];
                put(out, &tangent);
            }
            Part::Values => put(out, &self.values(known.sigma, known.z.unwrap_or(0.0))),
            Part::ValuesOfNegative => put(out, &self.values(-known.sigma, known.z.unwrap_or(0.0))),
            Part::Jacobian => put(out, &self.rotation_jacobians(known.phi).0),
            Part::JacobianInverse => put(out, &self.rotation_jacobians(known.phi).1),
            Part::JacobianOfNegative => {
                put(out, &self.rotation_jacobians(known.phi.map(|x| -x)).0);
            }
            Part::JacobianInverseOfNegative => {
                put(out, &self.rotation_jacobians(known.phi.map(|x| -x)).1);
            }
            _ => unreachable!("not an input"),
        }
    }

    /// A squared angle for a function of the angle alone.
    fn lone_angle(&mut self) -> Float {
        match self.rng.below(4) {
            0 => self.rng.between(0.0, 12.0),
            1 => self.rng.between(0.0, 0.01),
            _ => self.sigma_angle().1,
        }
    }

    fn term_count(&mut self) -> u64 {
        match self.rng.below(16) {
            0 => self.rng.pick(&[32, 33, 64, 65, 100, 255, 256, 1 << 32, u64::MAX]),
            1..=2 => self.rng.pick(&[0, 1, 2, 27, 28, 29, 30, 31]),
            _ => self.rng.below(29) as u64,
        }
    }

    fn index(&mut self) -> u64 {
        if self.rng.one_in(8) {
            return self.rng.pick(&[3, 4, 8, 9, 255, 256, 1 << 32, u64::MAX]);
        }
        self.rng.below(3) as u64
    }

    /// A point list, mostly short; now and then at the greatest length or of a refused one.
    fn point_list(&mut self, out: &mut Vec<u8>) {
        let n = match self.rng.below(512) {
            0 => self.rng.pick(&[65_535, 65_536, 65_538, 65_534]),
            1..=40 => self.rng.below(60),
            _ => 3 * self.rng.below(12),
        };
        out.extend_from_slice(&(n as u64).to_le_bytes());
        let mood = self.mood();
        (0..n).for_each(|_| put(out, &[self.number(mood)]));
    }
}

/// What the parts of a library record so far were.
struct Known {
    mood: Mood,
    sigma: Float,
    z: Option<Float>,
    phi: [Float; 3],
    log_scales: [Float; 2],
    norm_sq: Float,
}

impl Default for Known {
    fn default() -> Self {
        Self {
            mood: Mood::Ordinary,
            sigma: 0.0,
            z: None,
            phi: [0.0; 3],
            log_scales: [0.0; 2],
            norm_sq: 0.0,
        }
    }
}

impl Known {
    fn know_phi(&mut self, phi: [Float; 3]) {
        self.phi = phi;
        self.z = Some(squared_angle(phi));
    }
}
