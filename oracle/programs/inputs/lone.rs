//! Records whose answer holds one number alone that is not finite: the first, the last, or any
//! that can stand alone.

use super::frames::{meet, put_frames};
use super::records::{put, Letters};
use super::{Mood, Source};
use helicoid::judge::layout::{Reader, Writer, WIDTH};
use helicoid::judge::marks::{mark, Answer};
use helicoid::judge::Values;
use helicoid_linalg::float::{by_width, Float};

/// A number whose square overflows, and the squared angle and the values with which the last number
/// of a coefficient set does.
const GREAT: Float = by_width(1e200f64, 1e25) as Float;
const GREAT_ANGLE: Float = by_width(1e300f64, 1e37) as Float;
const LONE_VALUES: [Float; 10] = [1.0, 1.0, 5e4, 0.5, 1e4, -0.5, 0.5, -0.5, 2.0, 0.5];

/// How many numbers of a record's answer are not finite; none if it is refused.
fn not_finite(record: &[u8]) -> usize {
    let (letters, numbers) = record.split_first_chunk::<2>().expect("a whole record");
    let (mark, mut out) = (mark(*letters).expect("a mark"), letters.to_vec());
    let Answer::Alone(answer) = mark.answer else { unreachable!("an answer that the job decides") };
    if answer(Reader(numbers), Writer(&mut out)).is_err() {
        return 0;
    }
    let words =
        mark.numbers(&out).chunks_exact(WIDTH).map(|x| Float::from_le_bytes(x.try_into().unwrap()));
    words.filter(|x| !x.is_finite()).count()
}

/// A matrix with these three numbers on its diagonal, column by column.
fn diagonal(d: [Float; 3]) -> [Float; 9] {
    core::array::from_fn(|i| if i % 4 == 0 { d[i / 4] } else { 0.0 })
}

impl Source {
    /// A record whose answer has exactly one number that is a NaN or an infinity.
    pub fn lone_record(&mut self, letters: Letters, out: &mut Vec<u8>) {
        let (start, mark) = (out.len(), letters.map(|x| x.to_ascii_uppercase()));
        loop {
            out.truncate(start);
            if &mark == b"PA" || self.rng.one_in(8) {
                self.job_record(letters, out);
            } else {
                out.extend_from_slice(&letters);
                self.nearly_lone(&mark, out);
            }
            if &mark == b"MU" {
                meet(&mut out[start..]);
            }
            if not_finite(&out[start..]) == 1 {
                return;
            }
        }
    }

    /// Numbers of a record whose answer mostly has one such number.
    fn nearly_lone(&mut self, mark: &[u8; 2], out: &mut Vec<u8>) {
        let place = self.rng.below(3);
        match mark {
            b"EX" => {
                let (sigma, mut rho) =
                    (self.rng.between(1.0, 3.0), self.numbers::<3>(Mood::Ordinary));
                rho[place] = self.huge();
                put(out, &[[0.0; 3], rho].concat());
                put(out, &[sigma]);
                put(out, &Values::of_host(sigma, 0.0).to_array());
                put_frames(out, self.frames());
            }
            b"CO" | b"AR" => {
                let sigma = self.rng.between(0.5, 3.0);
                put(out, &[self.rng.signed(sigma), GREAT_ANGLE]);
                put(out, &LONE_VALUES);
            }
            b"JI" => self.nearly_lone_block(place, out),
            _ => self.nearly_lone_pose(mark, place, out),
        }
    }

    /// A number that is not finite, or so large that twice it is not.
    fn huge(&mut self) -> Float {
        let x = self.rng.between(0.9, 1.0) * Float::MAX;
        self.rng.signed(x)
    }

    fn lost(&mut self) -> Float {
        self.rng.pick(&[Float::NAN, Float::INFINITY, Float::NEG_INFINITY])
    }

    /// A block whose inverse overflows in one entry of b or of f.
    fn nearly_lone_block(&mut self, place: usize, out: &mut Vec<u8>) {
        let (mut a, mut b, mut f, mut e) = ([1.0; 3], [0.0; 9], [0.0; 3], 1.0);
        if self.rng.one_in(2) {
            a[place] = 0.0625;
            b[3 * place + self.rng.below(3)] = self.huge();
        } else {
            f[place] = self.huge();
            e = 0.0625;
        }
        for part in [diagonal(a), b, diagonal([1.0; 3])] {
            put(out, &part);
        }
        put(out, &f);
        put(out, &[e]);
    }

    /// A pose's record: one number of the translation, the last, or of a product any.
    fn nearly_lone_pose(&mut self, mark: &[u8; 2], place: usize, out: &mut Vec<u8>) {
        let (mut q, mut t) = (self.unit_quat(1.0), self.numbers::<3>(Mood::Ordinary));
        let (mut sigma, last) = (self.ordinary(), self.rng.one_in(2));
        match mark {
            b"IN" if last => sigma = self.lost(),
            b"IN" => (q, t[place]) = ([1.0, 0.0, 0.0, 0.0], self.huge()),
            b"MU" if last => return self.nearly_lone_product(out),
            _ => t[place] = self.lost(),
        }
        put(out, &[q[0], q[1], q[2], q[3], t[0], t[1], t[2], sigma]);
        put_frames(out, self.frames());
        match mark {
            b"MU" => {
                put(out, &self.numbers::<8>(Mood::Ordinary));
                put_frames(out, self.frames());
                put(out, &self.numbers::<1>(Mood::Ordinary));
            }
            b"AC" => put(out, &self.numbers::<4>(Mood::Ordinary)),
            _ => put(out, &[4.0]),
        }
    }

    /// Two poses whose product overflows in one number of the quaternion, or in the log scale.
    fn nearly_lone_product(&mut self, out: &mut Vec<u8>) {
        let (mut left, mut right) = ([0.0; 8], [0.0; 8]);
        left[0] = self.rng.signed(GREAT);
        right[self.rng.below(4)] = self.rng.signed(GREAT);
        if self.rng.one_in(2) {
            (left[0], left[7], right[7]) = (1.0, Float::MAX, self.lost().max(Float::MAX));
        }
        for pose in [left, right] {
            put(out, &pose);
            put_frames(out, self.frames());
        }
        put(out, &[1.0]);
    }
}
