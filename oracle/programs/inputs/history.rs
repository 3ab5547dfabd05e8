//! Histories of a job's running join: CH records that follow one another, and RN between them. They
//! have a source of their own, so that a seed gives the same records of other marks without them.

use super::frames::{put_frames, Frames};
use super::records::put;
use super::{Mood, Source};
use helicoid_linalg::float::Float;

/// What turns a source's seed into that of its histories.
const APART: u64 = 0x6a6f_696e;

/// A source of one job's history, and where it stands: the frames and the log scale of the running
/// pose, once there is one.
pub struct History {
    source: Source,
    /// Whether any pose may come, as in one job in four. A number that is not finite stays for the
    /// rest of a job, so most jobs have few.
    wild: bool,
    /// Whether n is mostly 0 or large, as in another job in four, so that hundreds of products are
    /// counted.
    patient: bool,
    running: Option<(Frames, Float)>,
}

impl History {
    pub fn new(seed: u64) -> Self {
        let mut source = Source::new(seed ^ APART << 32);
        let kind = source.rng.below(4);
        Self { source, wild: kind == 0, patient: kind == 1, running: None }
    }

    /// A record of either mark: CH five times in six.
    pub fn record(&mut self, out: &mut Vec<u8>) {
        match self.source.rng.one_in(6) {
            true => self.every(out),
            false => self.join(out),
        }
    }

    /// An RN record.
    pub fn every(&mut self, out: &mut Vec<u8>) {
        let rng = &mut self.source.rng;
        let n = match rng.below(8) {
            3.. if self.patient && rng.one_in(60) => 250 + rng.below(500) as u16,
            3.. if self.patient => rng.pick(&[0, 0x8000, 65_535]),
            0 if self.patient => 0xff00 + rng.below(256) as u16,
            2 if self.patient => 0x4000 + (rng.bits() >> 50) as u16,
            0 => rng.pick(&[4, 7, 12, 255, 256, 257, 512, 0x8000, 0xff00, 0xfffe]),
            1 => 65_535,
            2 => rng.bits() as u16,
            3 | 4 => 0,
            _ => 1 + rng.below(3) as u16,
        };
        out.extend_from_slice(b"RN");
        out.extend_from_slice(&n.to_le_bytes());
    }

    /// A CH record; the first has any frames, and an `up` of nothing.
    pub fn join(&mut self, out: &mut Vec<u8>) {
        let (before, log_scale) = self.running.unwrap_or_default();
        let pose = self.pose(log_scale);
        let frames = match self.running {
            Some(_) => self.source.joining_frames(before),
            None => self.source.frames(),
        };
        self.put(pose, frames, out);
    }

    /// A CH record whose frames do not meet those of the running pose, if there is one.
    pub fn parted(&mut self, out: &mut Vec<u8>) {
        let (before, log_scale) = self.running.unwrap_or_default();
        let (pose, [from, _]) = (self.pose(log_scale), self.source.frames());
        self.put(pose, [from, before[0] ^ 1], out);
    }

    /// A CH record of ordinary numbers whose frames meet, for timing.
    pub fn good(&mut self, out: &mut Vec<u8>) {
        let (before, log_scale) = self.running.unwrap_or_default();
        let [from, to] = self.source.frames();
        let frames = [from, if self.running.is_some() { before[0] } else { to }];
        let pose = self.ordinary(1.0, log_scale);
        self.put(pose, frames, out);
    }

    /// Writes a CH record and follows the join.
    fn put(&mut self, pose: [Float; 8], frames: Frames, out: &mut Vec<u8>) {
        let up = match self.running {
            Some((_, log_scale)) => self.up(log_scale),
            None => self.source.exponential(pose[7]),
        };
        out.extend_from_slice(b"CH");
        put(out, &pose);
        put_frames(out, frames);
        put(out, &[up]);
        self.running = match self.running {
            Some((before, log_scale)) if before[0] == frames[1] => {
                Some(([frames[0], before[1]], log_scale + pose[7]))
            }
            None => Some((frames, pose[7])),
            refused => refused,
        };
    }

    /// The exponential of the running log scale, or of nothing, and then mostly an ordinary number.
    fn up(&mut self, log_scale: Float) -> Float {
        let any = if self.wild { 8 } else { 2_000 };
        match self.source.rng.below(4) {
            0 if self.source.rng.one_in(any) => self.source.exponential(log_scale),
            0 => self.source.rng.between(0.25, 2.0),
            _ => log_scale.exp(),
        }
    }

    /// A pose near to a rotation; now and then one with a number that is not ordinary, or any.
    fn pose(&mut self, log_scale: Float) -> [Float; 8] {
        let any = if self.wild { 8 } else { 4_000 };
        if self.source.rng.one_in(any) {
            return self.source.pose();
        }
        let length = match self.source.rng.below(8) {
            0 => self.source.rng.between(0.99, 1.01),
            1 | 2 => self.source.rng.between(0.999_999, 1.000_001),
            _ => 1.0,
        };
        let mut pose = self.ordinary(length, log_scale);
        if self.source.rng.one_in(any / 4) {
            let place = 4 + self.source.rng.below(4);
            pose[place] = self.source.special();
        }
        pose
    }

    /// A quaternion of this length, an ordinary translation, and a log scale that leads the running
    /// one back to where its exponential is ordinary.
    fn ordinary(&mut self, length: Float, log_scale: Float) -> [Float; 8] {
        let [w, x, y, z] = self.source.unit_quat(length);
        let [t0, t1, t2] = self.source.numbers(Mood::Ordinary);
        let back = if log_scale.abs() > 2.0 { log_scale.signum() } else { 0.0 };
        [w, x, y, z, t0, t1, t2, self.source.rng.between(-0.5, 0.5) - back]
    }
}
