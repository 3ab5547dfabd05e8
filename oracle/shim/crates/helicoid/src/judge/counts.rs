//! How the records of a job are counted, and which answers are usable.

use super::layout::WIDTH;
use helicoid_linalg::float::Float;

/// The marks in the order in which the last line counts their records. Behind them stands one count
/// more, of unknown and half marks together.
const ROWS: [&[u8; 2]; 19] = [
    b"EX", b"CO", b"PA", b"AC", b"MU", b"IN", b"JI", b"ex", b"co", b"pa", b"ac", b"mu", b"in",
    b"ji", b"AR", b"CH", b"RN", b"SH", b"SQ",
];
const UNKNOWN: usize = ROWS.len();

/// The counts of the last line.
#[derive(Default)]
pub struct Counts {
    pub begun: u32,
    /// Records answered with finite numbers alone.
    pub answered: u32,
    pub refused: u32,
    /// Records whose answer holds a NaN or an infinity.
    pub unusable: u32,
    /// Records begun, by their marks.
    rows: [u32; UNKNOWN + 1],
}

impl Counts {
    /// A record begun: whole, refused or cut, by the two bytes that it begins with, or the one that
    /// there is.
    pub fn mark(&mut self, begin: &[u8]) {
        let row = ROWS.iter().position(|mark| mark.as_slice() == begin);
        self.rows[row.unwrap_or(UNKNOWN)] += 1;
    }

    /// An answered record, and whether the numbers of its answer are all finite.
    pub fn answer(&mut self, finite: bool) {
        self.begun += 1;
        if finite {
            self.answered += 1;
        } else {
            self.unusable += 1;
        }
    }

    pub fn refuse(&mut self, number: u8, out: &mut Vec<u8>) {
        out.extend_from_slice(&[b'N', b'O', number]);
        self.begun += 1;
        self.refused += 1;
    }

    pub fn write(&self, out: &mut Vec<u8>) {
        out.extend_from_slice(b"ZZ");
        for count in [self.begun, self.answered, self.refused, self.unusable] {
            out.extend_from_slice(&count.to_le_bytes());
        }
        for row in self.rows {
            out.extend_from_slice(&row.to_le_bytes());
        }
    }
}

/// Whether none of these numbers, as they are written, is a NaN or an infinity.
pub fn all_finite(numbers: &[u8]) -> bool {
    let mut all = numbers.chunks_exact(WIDTH).map(|x| Float::from_le_bytes(x.try_into().unwrap()));
    all.all(Float::is_finite)
}
