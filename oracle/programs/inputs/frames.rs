//! Frames of poses, drawn apart from the numbers: a seed gives the same numbers whatever is asked of
//! the frames.

use super::{Rng, Source};
use helicoid::judge::layout::WIDTH;

/// A pose's frames: from, to.
pub type Frames = [u16; 2];

/// Where the left pose's `from` and the right pose's `to` stand in a whole MU record.
const LEFT_FROM: usize = 2 + 8 * WIDTH;
const RIGHT_TO: usize = LEFT_FROM + 4 + 8 * WIDTH + 2;

pub(super) fn put_frames(out: &mut Vec<u8>, frames: Frames) {
    frames.iter().for_each(|x| out.extend_from_slice(&x.to_le_bytes()));
}

/// Makes the frames of a MU record meet.
pub(super) fn meet(record: &mut [u8]) {
    record.copy_within(RIGHT_TO..RIGHT_TO + 2, LEFT_FROM);
}

/// Makes the frames of a MU record differ where they must be equal.
pub(super) fn part(record: &mut [u8]) {
    meet(record);
    record[LEFT_FROM] ^= 1;
}

/// Any number, one of the few that often meet, or one with a byte of zeros or of ones.
fn frame(rng: &mut Rng) -> u16 {
    match rng.below(8) {
        0 => rng.pick(&[0, 1, 0xff, 0x100, 0x101, 0x7fff, 0x8000, 0xff00, 0xfffe, 0xffff]),
        1 => rng.below(4) as u16,
        _ => rng.bits() as u16,
    }
}

impl Source {
    /// Frames of a pose: any two, or twice the same.
    pub fn frames(&mut self) -> Frames {
        let rng = &mut self.frames;
        let from = frame(rng);
        [from, if rng.one_in(8) { from } else { frame(rng) }]
    }

    /// Frames of two poses that meet: the left one's `from` is the right one's `to`.
    pub fn meeting_frames(&mut self) -> [Frames; 2] {
        let (left, right) = (self.frames(), self.frames());
        [[right[1], left[1]], right]
    }

    /// Frames of two poses, three times in four such as meet. The others do not, but for chance:
    /// apart in one byte or one bit, with the bytes exchanged, in the wrong order, with equal froms
    /// and equal tos, or any.
    pub fn product_frames(&mut self) -> [Frames; 2] {
        let [mut left, right] = self.meeting_frames();
        let rng = &mut self.frames;
        let other = 1 + rng.below(255) as u16;
        match rng.below(28) {
            0 => left[0] ^= other << 8,
            1 => left[0] ^= other,
            2 => left[0] ^= 1 << rng.below(16),
            3 => left[0] = left[0].swap_bytes(),
            4 => return [right, left],
            5 => left = right,
            6 => left[0] = frame(rng),
            _ => {}
        }
        [left, right]
    }

    /// Frames of a pose that is to be joined to the right of one with these: five times in six its
    /// `to` is their `from`. Else they mostly differ, in one of the ways of a product.
    pub fn joining_frames(&mut self, running: Frames) -> Frames {
        let [from, _] = self.frames();
        let rng = &mut self.frames;
        let other = 1 + rng.below(255) as u16;
        let to = match rng.below(42) {
            0 => running[0] ^ other << 8,
            1 => running[0] ^ other,
            2 => running[0] ^ 1 << rng.below(16),
            3 => running[0].swap_bytes(),
            4 => return [running[1], from],
            5 => return running,
            6 => frame(rng),
            _ => running[0],
        };
        [from, to]
    }
}
