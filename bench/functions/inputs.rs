//! Inputs of the calls, by a seed: ordinary numbers, many of one arm, the same for both sides.

use helicoid_linalg::float::{by_width, Float};

/// Rows of equally many numbers.
pub struct Inputs {
    pub width: usize,
    pub numbers: Vec<Float>,
}

impl Inputs {
    pub fn count(&self) -> usize {
        self.numbers.len() / self.width
    }
}

/// How many inputs a pass over one arm has.
pub const COUNT: usize = 256;

/// An arm of the coefficients: its name, and σ and z around which its inputs lie.
pub struct Arm {
    pub name: &'static str,
    sigma: Float,
    z: Float,
}

const fn arm(name: &'static str, sigma: Float, z: Float) -> Arm {
    Arm { name, sigma, z }
}

/// The same numbers at both widths: at `f32` the first four lie in the arms of its own series, and of
/// the closed ones those at z 3 have v1 in form a.
pub const ARMS: [Arm; 10] = [
    arm(by_width("series, 6 terms", "series, 4 terms"), 0.004, 2e-5),
    arm(by_width("series, 11 terms", "series, 7 terms"), 0.1, 0.02),
    arm(by_width("series, 14 terms", "series, 9 terms"), 0.2, 0.15),
    arm(by_width("series, 19 terms", "series, 11 terms"), 0.5, 1.0),
    arm("closed, σ 0.2, z 3", 0.2, 3.0),
    arm("closed, σ 0.2, z 7", 0.2, 7.0),
    arm("closed, σ 0.2, z 9.7", 0.2, 9.7),
    arm("closed, σ 1.5, z 3", 1.5, 3.0),
    arm("closed, σ 1.5, z 7", 1.5, 7.0),
    arm("closed, σ 1.5, z 9.7", 1.5, 9.7),
];

/// A generator of numbers (splitmix64).
struct Generator(u64);

impl Generator {
    /// From −1 to 1.
    fn next(&mut self) -> Float {
        self.0 = self.0.wrapping_add(0x9e37_79b9_7f4a_7c15);
        let mut x = self.0;
        x = (x ^ (x >> 30)).wrapping_mul(0xbf58_476d_1ce4_e5b9);
        x = (x ^ (x >> 27)).wrapping_mul(0x94d0_49bb_1331_11eb);
        (((x ^ (x >> 31)) >> 11) as f64 / (1u64 << 52) as f64 - 1.0) as Float
    }
    fn array<const N: usize>(&mut self) -> [Float; N] {
        [(); N].map(|()| self.next())
    }
    /// Within a thousandth of a number.
    fn near(&mut self, x: Float) -> Float {
        x * (1.0 + 0.001 * self.next())
    }
    fn direction(&mut self) -> [Float; 3] {
        let v: [Float; 3] = self.array();
        let n = v.iter().map(|x| x * x).sum::<Float>().sqrt();
        v.map(|x| x / n)
    }
}

fn rows(mut row: impl FnMut(&mut Generator) -> Vec<Float>) -> Inputs {
    let mut generator = Generator(1);
    let all: Vec<Vec<Float>> = (0..COUNT).map(|_| row(&mut generator)).collect();
    Inputs { width: all[0].len(), numbers: all.concat() }
}

/// The ten values at σ and z. All exponentials are one number, and those less 1 are one number: see
/// `given.rs`.
fn values(sigma: Float, z: Float) -> [Float; 10] {
    let root = z.sqrt();
    let (e, m) = ((-sigma.abs()).exp(), (-sigma.abs()).exp_m1());
    let half = 0.5 * root;
    [root, half.sin(), half.cos(), root.sin(), e, m, e, m, e, e]
}

/// σ, z, values; σ negated if `sign` is −1.
pub fn coefficients(arm: &Arm, sign: Float) -> Inputs {
    rows(|d| {
        let (sigma, z) = (d.near(arm.sigma), d.near(arm.z));
        [&[sign * sigma, z][..], &values(sigma, z)].concat()
    })
}

fn tangent_and_values(d: &mut Generator, arm: &Arm) -> Vec<Float> {
    let (sigma, z) = (d.near(arm.sigma), d.near(arm.z));
    let phi = d.direction().map(|x| x * z.sqrt());
    [&phi[..], &d.array::<3>(), &[sigma], &values(sigma, z)].concat()
}

/// Tangent, values.
pub fn tangents(arm: &Arm) -> Inputs {
    rows(|d| tangent_and_values(d, arm))
}

/// A matrix that is near the identity.
fn matrix(d: &mut Generator) -> [Float; 9] {
    let mut m = d.array::<9>().map(|x| 0.2 * x);
    for i in [0, 4, 8] {
        m[i] += 1.0;
    }
    m
}

/// Tangent, values, rotation Jacobian, its inverse. The inverse is any matrix: it is handed in.
pub fn tangents_with_jacobians(arm: &Arm) -> Inputs {
    rows(|d| [&tangent_and_values(d, arm)[..], &matrix(d), &matrix(d)].concat())
}

/// A unit quaternion, a translation, σ.
fn pose(d: &mut Generator) -> Vec<Float> {
    let [x, y, z] = d.direction();
    let (sin, cos) = d.next().sin_cos();
    [&[cos, sin * x, sin * y, sin * z][..], &d.array::<3>(), &[d.next()]].concat()
}

/// Pose, its exponential (up or down).
pub fn poses() -> Inputs {
    rows(|d| [&pose(d)[..], &[1.0 + 0.1 * d.next()]].concat())
}

/// Pose, pose, up.
pub fn two_poses() -> Inputs {
    rows(|d| [&pose(d)[..], &pose(d), &[1.0 + 0.1 * d.next()]].concat())
}

/// Pose, up, point.
pub fn poses_and_points() -> Inputs {
    rows(|d| [&pose(d)[..], &[1.0 + 0.1 * d.next()], &d.array::<3>()].concat())
}

/// A block whose a and c are near the identity.
pub fn blocks() -> Inputs {
    rows(|d| {
        let (a, b, c) = (matrix(d), d.array::<9>(), matrix(d));
        [&a[..], &b, &c, &d.array::<3>(), &[1.0 + 0.1 * d.next()]].concat()
    })
}

/// Where a list's points begin, after a pose and its exponential: on 16 bytes, or, `off` being 1, one
/// number before that, off 16 bytes. Both sides' lists lie alike, since it costs either side time
/// where vectors of some numbers cross the ends of cache lines.
pub const fn list_at(off: usize) -> usize {
    by_width(10, 12) - off
}

/// One pose, up 1 and a list of points: a motion that keeps the numbers' size when repeated.
pub fn list(points: usize, off: usize) -> Inputs {
    let mut d = Generator(2);
    let mut numbers = [&pose(&mut d)[..], &[1.0]].concat();
    numbers.resize(list_at(off), 0.0);
    numbers.extend((0..3 * points).map(|_| d.next()));
    Inputs { width: numbers.len(), numbers }
}
