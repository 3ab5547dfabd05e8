//! Log scales and squared angles: every limit of the arms and its neighbours.

use super::numbers::nudge;
use super::{Mood, Source};
use helicoid_linalg::float::{all_at_width, at_width, by_width, Float};

/// The limits of the arms in `Δ`: series below them in turn, closed from the last.
pub const ARM_LIMITS: [Float; 4] = all_at_width(
    [0x3f0c_70e5_9cfc_9f1f, 0x3fa5_9742_aa36_710d, 0x3fd0_e813_9c96_fc79, 0x3fff_b1ff_bc2a_9c8c],
    [0x3a7c_e158, 0x3e03_ba20, 0x3f20_5df3, 0x4017_c496],
);

/// Below this `Δ` the closed arm has form a of `v1`; at the wide width the closed arm begins there.
const FORM_LIMIT: Float = at_width(0x3fff_b1ff_bc2a_9c8c, 0x40ba_8a92);

/// All limits in `Δ`, each once.
const DELTA_LIMITS: &[Float] = by_width(
    &ARM_LIMITS,
    &[ARM_LIMITS[0], ARM_LIMITS[1], ARM_LIMITS[2], ARM_LIMITS[3], FORM_LIMIT],
);

/// Below this `σ²` the closed arm takes `v0` and `w0` from series.
const SERIES_V0_BELOW: Float = at_width(0x3fe2_a775_0162_6657, 0x3f15_3ba8);

/// The limits in `z`: the two groups' short ones, the members' own short ones, the members' own
/// first ones (`cos θ/2`, `a`, `b`, `d`, `k`; at `b`'s the exponential's translation turns too).
const ANGLE_LIMITS: [Float; 10] = all_at_width(
    [
        0x3f65_a3f0_2498_4d68,
        0x3f75_6f30_5d5f_8ce6,
        0x3f66_6ee1_d8b3_520e,
        0x3f67_4142_c42e_0582,
        0x3f7c_9548_b66b_624b,
        0x4014_ee95_3b2f_4f99,
        0x4017_5152_41ba_ffec,
        0x401f_1837_c8ed_2f09,
        0x4020_b50e_65c5_be18,
        0x4023_4b11_4748_7fea,
    ],
    [
        0x3a83_126f,
        0x3afa_78f1,
        0x3ab5_30b7,
        0x3ab5_30b7,
        0x3b66_dd02,
        0x4091_02bc,
        0x411a_588a,
        0x410f_a144,
        0x411a_588a,
        0x411a_588a,
    ],
);

/// Rare angles, found by `rare`: the short arm's terms and the whole row round apart. At the wide
/// width: below the five's limit in `k`, `cos θ/2`, `a`, `b`, `d`; from there to `exp_coeffs'` in
/// `k` and `cos θ/2`; from there to the member's own limit in `a` and `b`; and from `exp_coeffs'`
/// limit to its own in `k`. At the narrow one: the first in each row, in the same order. Of those
/// one alone, in `k`, lies where a short arm is taken; at the others one that reached too far would
/// be seen.
pub const RARE: [Float; 60] = all_at_width(
    [
        0x3f63_0004_059b_04a6,
        0x3f5f_3087_6128_90b6,
        0x3f5b_7a9d_268b_f1d0,
        0x3f65_8e3a_0f90_e630,
        0x3f62_581d_3fa6_7722,
        0x3f64_e7f7_0f93_c735,
        0x3f64_d094_c8fb_f30d,
        0x3f65_8d7e_94eb_28f1,
        0x3f61_901e_13c4_b190,
        0x3f63_6808_c16a_1288,
        0x3f65_4c43_ad33_2960,
        0x3f64_fe54_df85_41d6,
        0x3f65_798d_c290_29bb,
        0x3f5c_2c74_1e6d_24d4,
        0x3f62_b203_0c9c_69e8,
        0x3f64_6192_1d08_01e4,
        0x3f61_adde_c1f9_6da5,
        0x3f5c_90fa_f00c_32b7,
        0x3f5f_b038_39b9_c17b,
        0x3f61_3687_ffd7_51e8,
        0x3f65_6254_4165_49a0,
        0x3f63_2ed5_00d7_138e,
        0x3f62_64b0_9e8e_857b,
        0x3f65_80ac_ad6f_0944,
        0x3f5b_6648_a05a_ff7f,
        0x3f63_adfd_a9b0_8d15,
        0x3f65_9e4b_0d51_56a9,
        0x3f65_a208_82fd_fffc,
        0x3f62_3fd2_f2df_52b9,
        0x3f63_9751_2508_52e4,
        0x3f64_7199_74c1_acfe,
        0x3f64_7fbe_0781_718d,
        0x3f65_42a9_6024_789a,
        0x3f65_24e2_570a_040d,
        0x3f72_b8c7_07d4_821b,
        0x3f70_0dd0_6aa3_2d38,
        0x3f75_56ee_21d3_aa65,
        0x3f6e_b900_9466_35aa,
        0x3f75_54b9_16d6_9937,
        0x3f6b_97bc_7b17_3ee9,
        0x3f72_8936_db0d_5660,
        0x3f70_c138_8d03_eb85,
        0x3f74_a8f7_0a8b_f148,
        0x3f74_4e79_9072_b54e,
        0x3f75_6f21_664e_4dd9,
        0x3f74_7839_3e86_1915,
        0x3f66_3a82_07bf_be9f,
        0x3f66_196e_9299_8791,
        0x3f66_5d0d_c431_4d72,
        0x3f65_ebfb_6980_f652,
        0x3f67_2971_db61_2618,
        0x3f66_1b2a_7959_ee49,
        0x3f67_2f65_da93_1856,
        0x3f65_a5fe_0610_4423,
        0x3f79_2c84_8875_a249,
        0x3f77_454c_f392_5057,
        0x3f79_3388_7bc7_45a9,
        0x3f7c_0cc9_66e9_56c9,
        0x3f66_ef18_65df_2809,
        0x3f66_1d87_be70_4d0f,
    ],
    [
        0x3734_0001,
        0x3c2f_4100,
        0x3c2f_5f01,
        0x3c2f_7d04,
        0x3c2f_9b05,
        0x3c2f_b908,
        0x3c2f_d709,
        0x3c2f_f50c,
        0x3c30_130d,
        0x3b5d_87ff,
        0x3b5d_b801,
        0x3b5d_e802,
        0x3b5e_1804,
        0x3b5e_4806,
        0x3b5e_7808,
        0x3b5e_a809,
        0x3b5e_d80b,
        0x3b5f_080d,
        0x3b5f_6810,
        0x3b5f_9812,
        0x3b5f_c814,
        0x3ad7_af08,
        0x3ad9_1710,
        0x3ada_7f1c,
        0x3adb_e725,
        0x3add_4f30,
        0x3add_4f31,
        0x3ade_b739,
        0x3ade_b73a,
        0x3ae0_1f45,
        0x3ae0_1f46,
        0x3ae1_874e,
        0x3ae1_874f,
        0x3ae2_ef5a,
        0x3ae2_ef5b,
        0x3ae4_5764,
        0x3ae5_bf70,
        0x3ae7_2779,
        0x3ae7_277a,
        0x3ae8_8f86,
        0x3ae9_f78f,
        0x3aeb_5f9b,
        0x3b0f_80e9,
        0x3b11_f6fb,
        0x3b14_6d0c,
        0x3b16_e31e,
        0x3b19_592f,
        0x3b1b_cf42,
        0x3b1e_4553,
        0x3b20_bb67,
        0x3b23_3179,
        0x3b25_a78d,
        0x3b28_1da0,
        0x3b2a_93b5,
        0x3b8e_5994,
        0x3b8e_f719,
        0x3b8f_94a0,
        0x3b90_3226,
        0x3b90_cfad,
        0x3b91_6d33,
    ],
);

/// A log scale with which any angle is in the closed arm.
const CLOSED_SIGMA: (Float, Float) = (by_width(1.4075, 1.54), 6.0);

/// With `σσ` at the limit of the series for `v0` and `w0`, the closed arm begins about here in `z`.
const CLOSED_ANGLE: Float = by_width(1.39, 1.78);

/// Log scales that are subnormal, or whose squares are, vanish, or are lost beside one.
const TINY: [Float; 6] = by_width(
    [Float::from_bits(1), 1e-310f64 as Float, 1e-200f64 as Float, 1e-155f64 as Float, 1e-17, 1e-8],
    [Float::from_bits(1), 1e-40f64 as Float, 1e-23, 1e-20, 1e-9, 1e-4],
);

impl Source {
    /// A log scale and a squared angle that is not below zero (it may be `-0` or NaN).
    pub fn sigma_angle(&mut self) -> (Float, Float) {
        match self.rng.below(32) {
            0..=6 => self.at_arm_limit(),
            7..=9 => self.at_angle_limit(),
            10..=11 => self.at_series_limit(),
            12..=13 => self.at_rare_angle(),
            14..=18 => self.between_limits(),
            19..=22 => self.closed(),
            23..=24 => (self.zero(), self.rng.between(by_width(1.9, 2.3), 60.0)),
            25 => (self.large_sigma(), self.rng.between(0.0, 60.0)),
            26 => (self.tiny_sigma(), self.rng.between(0.0, 20.0)),
            27 => (self.ordinary(), self.special().abs()),
            28 => (self.special(), self.rng.between(0.0, 20.0)),
            29 => (self.special(), self.special().abs()),
            30 => (self.ordinary(), self.number(Mood::Wide).abs()),
            _ => (self.number(Mood::Any), self.number(Mood::Any).abs()),
        }
    }

    /// The same for the arm itself: more of what decides it and of nothing else.
    pub fn arm_angle(&mut self) -> (Float, Float) {
        match self.rng.below(16) {
            0..=3 => self.at_arm_limit(),
            4..=5 => (self.at_series_limit().0, self.any_angle()),
            6 => (self.with_large_square(), self.any_angle()),
            7 => (self.special(), self.any_angle()),
            _ => self.sigma_angle(),
        }
    }

    /// A squared angle that alone would be in any arm: at a limit, within one, or special.
    fn any_angle(&mut self) -> Float {
        match self.rng.below(4) {
            0 => self.special().abs(),
            1 => {
                let limit = self.rng.pick(&ARM_LIMITS);
                nudge(limit, self.rng.below(3) as i32 - 1)
            }
            2 => self.between_limits().1,
            _ => self.rng.between(CLOSED_ANGLE, 15.0),
        }
    }

    /// `fl(fl(σσ) + z)` on a limit of `Δ` or on a neighbour, with `σ = 0`, `z = 0` or both.
    fn at_arm_limit(&mut self) -> (Float, Float) {
        let limit = self.rng.pick(DELTA_LIMITS);
        let target = nudge(limit, self.rng.pick(&[-2, -1, -1, 0, 0, 1]));
        match self.rng.below(4) {
            0 => (self.zero(), target),
            1 => {
                let steps = self.rng.below(5) as i32 - 2;
                let sigma = nudge(target.sqrt(), steps);
                (self.rng.signed(sigma), self.zero())
            }
            _ => {
                let sigma = (target * self.rng.between(0.0, 1.0)).sqrt();
                (self.rng.signed(sigma), complement(target, sigma))
            }
        }
    }

    fn at_angle_limit(&mut self) -> (Float, Float) {
        let z = nudge(self.rng.pick(&ANGLE_LIMITS), self.rng.below(5) as i32 - 2);
        let sigma = match self.rng.below(5) {
            0 => self.zero(),
            1 => self.rng.between(-by_width(1.4, 1.53), by_width(1.4, 1.53)),
            _ => self.closed_sigma(),
        };
        (sigma, z)
    }

    /// `σσ` at the limit below which the closed arm takes series for `v0` and `w0`.
    fn at_series_limit(&mut self) -> (Float, Float) {
        let steps = self.rng.below(7) as i32 - 3;
        let sigma = nudge(SERIES_V0_BELOW.sqrt(), steps);
        (self.rng.signed(sigma), self.rng.between(CLOSED_ANGLE, 15.0))
    }

    fn at_rare_angle(&mut self) -> (Float, Float) {
        (self.closed_sigma(), self.rng.pick(&RARE))
    }

    fn closed_sigma(&mut self) -> Float {
        let sigma = self.rng.between(CLOSED_SIGMA.0, CLOSED_SIGMA.1);
        self.rng.signed(sigma)
    }

    /// `Δ` below a limit and not below the one before it: each series arm, and where the closed arm
    /// has form a, about as often as the others.
    fn between_limits(&mut self) -> (Float, Float) {
        let place = self.rng.below(DELTA_LIMITS.len());
        let (high, sigma_part) = (DELTA_LIMITS[place], self.rng.between(0.0, 1.0));
        let low = if place == 0 { high * 1e-6 } else { DELTA_LIMITS[place - 1] };
        let delta = self.rng.between(low, high);
        let sigma = (delta * sigma_part).sqrt();
        let z = if self.rng.one_in(8) { self.zero() } else { delta * (1.0 - sigma_part) };
        (self.rng.signed(sigma), z)
    }

    fn closed(&mut self) -> (Float, Float) {
        let sigma = self.rng.between(-4.0, 4.0);
        (sigma, self.rng.between(0.0, 40.0))
    }

    fn large_sigma(&mut self) -> Float {
        let sigma = self.rng.between(20.0, by_width(760.0, 110.0));
        self.rng.signed(sigma)
    }

    fn tiny_sigma(&mut self) -> Float {
        let sigma = self.rng.pick(&TINY);
        self.rng.signed(sigma)
    }

    /// The log scale and angle of one arm, 1 to 5 in rising `Δ`, of ordinary size.
    pub fn in_arm(&mut self, arm: usize) -> (Float, Float) {
        let limit = |i: usize| ARM_LIMITS[i];
        let (low, high) = match arm {
            1 => (limit(0) * 0.01, limit(0)),
            5 => (limit(3), 16.0),
            _ => (limit(arm - 2), limit(arm - 1)),
        };
        let (delta, part) = (self.rng.between(low, high), self.rng.between(0.05, 0.95));
        let sigma = (delta * part).sqrt();
        (self.rng.signed(sigma), delta * (1.0 - part))
    }

    /// A rotation vector whose squared angle is `z`, or as near as three squares come.
    pub fn phi_with(&mut self, z: Float) -> [Float; 3] {
        if !(z.is_finite() && z > 0.0) {
            return self.phi_of_special(z);
        }
        let mut phi = [z.sqrt(), 0.0, 0.0];
        match self.rng.below(3) {
            0 => phi.rotate_right(self.rng.below(3)),
            axes => {
                phi[0] = (z * self.rng.between(0.3, 0.999)).sqrt();
                if axes == 1 {
                    phi[1] = ((z - phi[0] * phi[0]) * 0.7).sqrt();
                }
                let rest = z - (phi[0] * phi[0] + phi[1] * phi[1]);
                phi[2] = rest.max(0.0).sqrt();
            }
        }
        phi.map(|x| self.rng.signed(x))
    }

    /// Zeros for zero; a NaN or infinite component, or ones whose squares overflow, for the rest.
    fn phi_of_special(&mut self, z: Float) -> [Float; 3] {
        if z == 0.0 {
            let tiny =
                self.rng.pick(&[0.0, Float::from_bits(1), by_width(1e-170f64, 1e-25) as Float]);
            return [self.zero(), self.rng.signed(tiny), self.zero()];
        }
        let mut phi = self.numbers(Mood::Sprinkled);
        let root = if z.is_infinite() {
            self.rng.pick(&[z, by_width(1e160f64, 1e25) as Float])
        } else {
            z
        };
        phi[self.rng.below(3)] = self.rng.signed(root);
        phi
    }
}

/// The `z` with `fl(fl(σσ) + z) = target`, as near as may be.
fn complement(target: Float, sigma: Float) -> Float {
    let square = sigma * sigma;
    let z = (target - square).max(0.0);
    let near = [0, 1, -1, 2, -2, 3, -3].map(|steps| if z > 0.0 { nudge(z, steps) } else { z });
    near.into_iter().find(|z| square + z == target).unwrap_or(z)
}
