//! How a job file ends: cleanly, or damaged in every way.

use crate::sources::{bytes_in, is_join, is_sheet, marks, Letters, Sources};

/// Marks that are in no job table: other case, other order, one letter wrong, the answers' own.
const UNKNOWN: [&Letters; 25] = [
    b"Ex",
    b"cO",
    b"Pa",
    b"aC",
    b"Mu",
    b"iN",
    b"Ji",
    b"XE",
    b"OC",
    b"AP",
    b"CA",
    b"UM",
    b"NI",
    b"IJ",
    b"EY",
    b"FX",
    b"ZZ",
    b"NO",
    b"ar",
    b"RA",
    b"HC",
    b"\0\0",
    b"\xff\xff",
    b"QQ",
    b"E\0",
];

/// The same beside the marks of the narrow width.
const UNKNOWN_SMALL: [&Letters; 23] = [
    b"eX", b"Co", b"pA", b"Ac", b"mU", b"In", b"jI", b"aR", b"Ar", b"xe", b"oc", b"ap", b"ca",
    b"um", b"ni", b"ij", b"ey", b"fx", b"zz", b"no", b"ch", b"e\0", b"\0x",
];

/// The same beside the marks of the running join.
const UNKNOWN_JOIN: [&Letters; 8] = [b"rn", b"Ch", b"cH", b"Rn", b"rN", b"NR", b"CI", b"RM"];

/// The same beside the marks of the kept sheets.
const UNKNOWN_SHEET: [&Letters; 10] =
    [b"sh", b"sq", b"Sh", b"sH", b"Sq", b"sQ", b"HS", b"QS", b"SI", b"SP"];

/// An end of a file.
#[derive(Clone, Copy, Debug)]
pub enum End {
    Clean,
    /// The first byte of a mark alone.
    Half(u8),
    /// A mark and so many bytes of its numbers.
    Cut(Letters, usize),
    /// An unknown mark, and behind it nothing, one byte, or a whole record.
    Unknown(&'static Letters, usize),
}

/// Every end: 0 is the clean one, the others are damaged.
pub fn ends() -> Vec<End> {
    let (join, rest): (Vec<_>, Vec<_>) = marks().into_iter().partition(is_join);
    let (sheet, rest): (Vec<_>, Vec<_>) = rest.into_iter().partition(is_sheet);
    let (single, double): (Vec<_>, Vec<_>) =
        rest.into_iter().partition(|letters| letters[0].is_ascii_lowercase());
    let cut = |letters: Letters| (0..bytes_in(letters)).map(move |n| End::Cut(letters, n));
    let mut all = vec![End::Clean];
    all.extend((0..=255).map(End::Half));
    all.extend(double.into_iter().flat_map(cut));
    for behind in 0..3 {
        all.extend(UNKNOWN.iter().map(|letters| End::Unknown(letters, behind)));
    }
    all.extend(single.into_iter().flat_map(cut));
    for behind in 0..3 {
        all.extend(UNKNOWN_SMALL.iter().map(|letters| End::Unknown(letters, behind)));
    }
    all.extend(join.into_iter().flat_map(cut));
    for behind in 0..3 {
        all.extend(UNKNOWN_JOIN.iter().map(|letters| End::Unknown(letters, behind)));
    }
    all.extend(sheet.into_iter().flat_map(cut));
    for behind in 0..3 {
        all.extend(UNKNOWN_SHEET.iter().map(|letters| End::Unknown(letters, behind)));
    }
    all
}

/// Writes an end. A cut record of CO, AR, JI, MU or CH, or of co, ji or mu, would earn refusal 1, 2
/// or 9 if it were whole; CH where a pose is running. One of SH, where a sheet is kept, would earn 10,
/// and one of SQ 12.
pub fn end(end: End, source: &mut Sources, out: &mut Vec<u8>) {
    match end {
        End::Clean => {}
        End::Half(byte) => out.push(byte),
        End::Cut(letters, bytes) => {
            let start = out.len();
            source.refused_record(letters, out);
            out.truncate(start + 2 + bytes);
        }
        End::Unknown(letters, behind) => {
            out.extend_from_slice(letters);
            match behind {
                0 => {}
                1 => out.push(b'E'),
                _ => source.job_record(*b"AC", out),
            }
        }
    }
}
