//! The ten handed-in function values of a tangent.

use helicoid_linalg::float::Float;

/// The values in the paper's order.
#[derive(Clone, Copy, Debug)]
pub struct Values {
    /// `√z`.
    pub root: Float,
    /// Sine and cosine of half the root.
    pub sin_half: Float,
    pub cos_half: Float,
    /// Sine of the root.
    pub sin: Float,
    /// `e^t` and `e^t − 1` at `t = −|σ|`.
    pub e: Float,
    pub m: Float,
    /// The same two at `−σ`, read only where `σ` is a zero.
    pub e0: Float,
    pub m0: Float,
    /// `e^σ` and `e^−σ`.
    pub up: Float,
    pub down: Float,
}

impl Values {
    #[inline(always)]
    pub fn from_array(a: [Float; 10]) -> Self {
        let [root, sin_half, cos_half, sin, e, m, e0, m0, up, down] = a;
        Self { root, sin_half, cos_half, sin, e, m, e0, m0, up, down }
    }

    #[inline(always)]
    pub fn to_array(self) -> [Float; 10] {
        let Self { root, sin_half, cos_half, sin, e, m, e0, m0, up, down } = self;
        [root, sin_half, cos_half, sin, e, m, e0, m0, up, down]
    }

    /// The mirrored values: those that the negative of a tangent with this `sigma` takes.
    #[inline(always)]
    pub fn mirrored(self, sigma: Float) -> Self {
        let turned = Self { up: self.down, down: self.up, ..self };
        if sigma == 0.0 {
            Self { e: self.e0, m: self.m0, e0: self.e, m0: self.m, ..turned }
        } else {
            turned
        }
    }

    /// The host's values for `sigma` and squared angle `z`.
    pub fn of_host(sigma: Float, z: Float) -> Self {
        let root = z.sqrt();
        let t = if sigma > 0.0 { -sigma } else { sigma };
        Self {
            root,
            sin_half: (0.5 * root).sin(),
            cos_half: (0.5 * root).cos(),
            sin: root.sin(),
            e: t.exp(),
            m: t.exp_m1(),
            e0: (-sigma).exp(),
            m0: (-sigma).exp_m1(),
            up: sigma.exp(),
            down: (-sigma).exp(),
        }
    }
}
