//! A running join: poses are joined as they come. And the Newton step on every pose of a list.
#![forbid(unsafe_code)]

use crate::{raw, unexpected, Join, Pose, Refusal};

/// Poses joined as they come: the first is the running pose, and each later one replaces it by
/// running X. After every nth product, as [`Running::every`] says, its quaternion is renormalised.
#[derive(Clone, Copy, Debug, PartialEq)]
pub struct Running {
    numbers: [f64; 8],
    /// From, to, n, the products since the last renormalisation, 1 where there is a pose.
    state: [u16; 5],
}

impl Default for Running {
    fn default() -> Running {
        Running::new()
    }
}

impl Running {
    /// No pose yet, and none will be renormalised.
    pub fn new() -> Running {
        let mut running = Running { numbers: [0.0; 8], state: [0; 5] };
        match raw::running_start(&mut running.numbers, &mut running.state) {
            0 => running,
            refused => unexpected(refused),
        }
    }

    /// Joins a pose, and returns the new running pose. `up` is e^sigma of the running pose, and
    /// unused at the first pose. Refused where the running pose does not start from the frame to which
    /// X goes; then nothing changes.
    pub fn push(&mut self, x: &Pose, up: f64) -> Result<Pose, Refusal> {
        match raw::running_push(&mut self.numbers, &mut self.state, &x.numbers, &[x.from, x.to], up) {
            0 => Ok(self.current()),
            9 => Err(Refusal::Frames { join: Join::Push, x: self.state[0], y: x.to }),
            refused => unexpected(refused),
        }
    }

    /// From here on the quaternion is renormalised after every nth product, 0 for never, as before any
    /// such call. Products are counted since the last renormalisation, also while n is 0. The pose does
    /// not change.
    pub fn every(&mut self, n: u16) {
        match raw::running_every(&mut self.state, n) {
            0 => (),
            refused => unexpected(refused),
        }
    }

    /// The running pose; None before the first.
    pub fn pose(&self) -> Option<Pose> {
        (self.state[4] == 1).then(|| self.current())
    }

    fn current(&self) -> Pose {
        Pose { numbers: self.numbers, from: self.state[0], to: self.state[1] }
    }
}

/// One Newton step towards a unit quaternion in every pose of the list; nothing else changes.
pub fn renormalize_all(poses: &mut [Pose]) {
    let mut numbers: Vec<f64> = poses.iter().flat_map(|x| x.numbers).collect();
    match raw::renormalize_all(&mut numbers) {
        0 => (),
        refused => unexpected(refused),
    }
    for (x, now) in poses.iter_mut().zip(numbers.chunks_exact(8)) {
        x.numbers.copy_from_slice(now);
    }
}
