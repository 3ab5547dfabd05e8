//! The running join of a job: what its CH and RN records leave behind. The products and the
//! renormalisations are the Rust's; when they are done is written here, by the request's rules.

use super::frames::Frames;
use super::reads;
use crate::Sim3;
use helicoid_linalg::float::Float;
use helicoid_linalg::handed::{finish, H};

/// The running pose, none before the first CH; the products since its quaternion was last
/// renormalised; and after how many that is done, 0 for never.
#[derive(Default)]
pub struct Chain {
    running: Option<(Sim3<H>, Frames)>,
    products: u64,
    every: u16,
}

impl Chain {
    /// CH: the first pose is taken as it comes, its `up` unread; a later one is joined to the right
    /// of the running one. Gives the running pose; a refusal leaves all as it was.
    pub fn join(&mut self, new: Sim3<H>, at: Frames, up: Float) -> Result<(Sim3<H>, Frames), u8> {
        let Some((old, before)) = self.running else {
            self.running = Some((new, at));
            return Ok((new, at));
        };
        let frames = Frames::product(before, at)?;
        reads::exponential_at(old.log_scale().0, up);
        let mut joined = old * new;
        finish();
        self.products += 1;
        if self.every > 0 && self.products >= u64::from(self.every) {
            joined.renormalize();
            self.products = 0;
        }
        self.running = Some((joined, frames));
        Ok((joined, frames))
    }

    /// RN: from here on the quaternion is renormalised after every `n`th product.
    pub fn set_every(&mut self, n: u16) {
        self.every = n;
    }
}
