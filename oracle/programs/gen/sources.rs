//! The sources of both widths: a mark's letters say from which of them its records come, so that a
//! seed gives the same records at one width whatever is asked at the other.

use oracle::inputs::{History, Retakes};

pub type Letters = [u8; 2];

pub struct Sources {
    double: oracle::inputs::Source,
    single: oracle_f32::inputs::Source,
    history: History,
    retakes: Retakes,
}

/// The marks: those of doubles in the order of the job table, those of the narrow width, those of the
/// running join, and those of the kept sheets.
pub fn marks() -> Vec<Letters> {
    let (state, double): (Vec<_>, Vec<_>) = oracle::inputs::marks().into_iter().partition(is_state);
    [double, oracle_f32::inputs::marks(), state].concat()
}

/// Whether a mark is of the running join.
pub fn is_join(letters: &Letters) -> bool {
    matches!(letters, b"CH" | b"RN")
}

/// Whether a mark is of the kept sheets.
pub fn is_sheet(letters: &Letters) -> bool {
    matches!(letters, b"SH" | b"SQ")
}

/// Whether a mark's answer depends on the records before it.
pub fn is_state(letters: &Letters) -> bool {
    is_join(letters) || is_sheet(letters)
}

/// The bytes behind a mark in a record.
pub fn bytes_in(letters: Letters) -> usize {
    let double = helicoid::judge::marks::mark(letters).map(|m| m.bytes_in);
    let single = || helicoid_f32::judge::marks::mark(letters).map(|m| m.bytes_in);
    double.or_else(single).expect("a mark")
}

fn is_single(letters: Letters) -> bool {
    letters[0].is_ascii_lowercase()
}

impl Sources {
    pub fn new(seed: u64) -> Self {
        let single = oracle_f32::inputs::Source::new(seed);
        let (history, retakes) = (History::new(seed), Retakes::new(seed));
        Self { double: oracle::inputs::Source::new(seed), single, history, retakes }
    }

    pub fn job_record(&mut self, letters: Letters, out: &mut Vec<u8>) {
        match &letters {
            b"CH" => self.history.join(out),
            b"RN" => self.history.every(out),
            b"SH" => self.retakes.bring(out),
            b"SQ" => self.retakes.ask(out),
            _ if is_single(letters) => self.single.job_record(letters, out),
            _ => self.double.job_record(letters, out),
        }
    }

    /// The next record of the job's running join, of either of its marks.
    pub fn history_record(&mut self, out: &mut Vec<u8>) {
        self.history.record(out);
    }

    /// The next record of the job's sheets, of either of their marks.
    pub fn sheet_record(&mut self, out: &mut Vec<u8>) {
        self.retakes.record(out);
    }

    /// A record that would be refused, by 1, 2, 9, 10 or 12, if its mark can be.
    pub fn refused_record(&mut self, letters: Letters, out: &mut Vec<u8>) {
        match &letters {
            b"CH" => self.history.parted(out),
            b"RN" => self.history.every(out),
            b"SH" | b"SQ" => self.retakes.refused(&letters, out),
            _ if is_single(letters) => self.single.refused_record(letters, out),
            _ => self.double.refused_record(letters, out),
        }
    }

    pub fn lone_record(&mut self, letters: Letters, out: &mut Vec<u8>) {
        match is_single(letters) {
            false => self.double.lone_record(letters, out),
            true => self.single.lone_record(letters, out),
        }
    }

    pub fn good_record(&mut self, letters: Letters, arm: usize, out: &mut Vec<u8>) {
        match &letters {
            b"CH" => self.history.good(out),
            b"RN" => self.history.every(out),
            b"SH" => self.retakes.good(out),
            b"SQ" => self.retakes.good_ask(out),
            _ if is_single(letters) => self.single.good_record(letters, arm, out),
            _ => self.double.good_record(letters, arm, out),
        }
    }

    /// A record of the library function with this number, of singles or of doubles.
    pub fn library_record(&mut self, id: u8, single: bool, out: &mut Vec<u8>) {
        match single {
            false => self.double.library_record(oracle::library::entry(id).expect("one"), out),
            true => self.single.library_record(oracle_f32::library::entry(id).expect("one"), out),
        }
    }
}

/// The numbers of the library functions, the same at both widths.
pub fn ids() -> Vec<u8> {
    oracle::library::entries().map(|e| e.id).collect()
}
