//! Histories of a job's kept sheets: SH records of new sheets and of ones taken again, and SQ between
//! them. They have a source of their own, so that a seed gives the same records of other marks
//! without them.

use super::frames::put_frames;
use super::records::put;
use super::{Mood, Rng, Source};
use helicoid_linalg::float::Float;
use std::collections::BTreeMap;

/// What turns a source's seed into that of its sheets.
const APART: u64 = 0x7368_6565;

/// So many sheets are kept, and none beyond them.
const MOST: usize = 512;

/// Numbers of sheets and takes at the ends of the range and of a byte.
const ENDS: [u16; 10] = [0, 1, 0xff, 0x100, 0x101, 0x7fff, 0x8000, 0xff00, 0xfffe, 0xffff];

/// Which sheets a job has.
#[derive(Clone, Copy, PartialEq)]
enum Kind {
    /// A handful, all of them often taken again.
    Few,
    /// About as many as are kept, scattered over all numbers.
    Full,
    /// Far more than are kept.
    Many,
    /// One after the other, from some number on.
    Rising,
}

/// A source of one job's sheets, and where it stands: the take that is kept of each.
pub struct Retakes {
    source: Source,
    kind: Kind,
    /// Where the sheets of a rising or a scattered job begin, and how far apart they lie.
    begin: u16,
    step: u16,
    /// Whether any pose may come, as in one job in two; else most are ordinary.
    wild: bool,
    kept: BTreeMap<u16, u16>,
}

impl Retakes {
    pub fn new(seed: u64) -> Self {
        let mut source = Source::new(seed ^ APART << 32);
        let rng = &mut source.rng;
        let kind = rng.pick(&[Kind::Few, Kind::Full, Kind::Many, Kind::Rising]);
        let (begin, step) = (rng.bits() as u16, 2 * rng.bits() as u16 + 1);
        let wild = rng.one_in(2);
        Self { source, kind, begin, step, wild, kept: BTreeMap::new() }
    }

    /// A record of either mark: SH three times in four.
    pub fn record(&mut self, out: &mut Vec<u8>) {
        match self.source.rng.one_in(4) {
            true => self.ask(out),
            false => self.bring(out),
        }
    }

    /// An SH record: of a sheet that is kept, or of any; of a later take, an older one, or the same.
    pub fn bring(&mut self, out: &mut Vec<u8>) {
        let sheet = self.sheet();
        let take = match self.kept.get(&sheet) {
            Some(kept) => another(*kept, &mut self.source.rng),
            None => first(&mut self.source.rng),
        };
        let pose = self.pose();
        self.put(sheet, take, pose, out);
    }

    /// An SQ record: of a sheet that is kept, of one that lies beside it, or of any.
    pub fn ask(&mut self, out: &mut Vec<u8>) {
        let sheet = match self.source.rng.below(8) {
            0 => beside(self.sheet(), &mut self.source.rng),
            1 => self.sheet(),
            _ => self.known().unwrap_or_else(|| self.begin),
        };
        put_ask(sheet, out);
    }

    /// A record of the same take as is kept, or of a sheet never kept, where there is such a one.
    pub fn refused(&mut self, letters: &[u8; 2], out: &mut Vec<u8>) {
        if letters == b"SQ" {
            let unknown = (0..=u16::MAX).find(|sheet| !self.kept.contains_key(sheet));
            return put_ask(unknown.unwrap_or(0), out);
        }
        let sheet = self.known().unwrap_or(0);
        let take = self.kept.get(&sheet).copied().unwrap_or(0);
        let pose = self.pose();
        self.put(sheet, take, pose, out);
    }

    /// An SH record of ordinary numbers, for timing: of as many scattered sheets as are kept, each
    /// taken again in turn.
    pub fn good(&mut self, out: &mut Vec<u8>) {
        let sheet = match self.kept.len() {
            MOST => self.known().expect("sheets"),
            n => self.begin.wrapping_add(self.step.wrapping_mul(n as u16)),
        };
        let take = self.kept.get(&sheet).map_or(1, |kept| kept.saturating_add(1));
        let pose = self.ordinary();
        self.put(sheet, take, pose, out);
    }

    /// An SQ record of a kept sheet, for timing; before that, SH records until all are kept.
    pub fn good_ask(&mut self, out: &mut Vec<u8>) {
        match self.kept.len() {
            MOST => put_ask(self.known().expect("sheets"), out),
            _ => self.good(out),
        }
    }

    /// Writes an SH record and follows what is kept.
    fn put(&mut self, sheet: u16, take: u16, pose: [Float; 8], out: &mut Vec<u8>) {
        out.extend_from_slice(b"SH");
        out.extend_from_slice(&sheet.to_le_bytes());
        out.extend_from_slice(&take.to_le_bytes());
        put(out, &pose);
        put_frames(out, self.source.frames());
        let room = self.kept.len() < MOST;
        match self.kept.get(&sheet) {
            Some(kept) if *kept >= take => {}
            None if !room => {}
            _ => drop(self.kept.insert(sheet, take)),
        }
    }

    /// The number of a sheet: of the job's own, now and then of any.
    fn sheet(&mut self) -> u16 {
        let full = self.kept.len() == MOST;
        if self.kind == Kind::Many && full && self.source.rng.one_in(2) {
            return self.known().unwrap_or_default();
        }
        let rng = &mut self.source.rng;
        if rng.one_in(if self.kind == Kind::Few { 40 } else { 300 }) {
            return rng.pick(&ENDS);
        }
        let place = match self.kind {
            Kind::Few => return rng.pick(&[0, 1, 7, 0x100, 0x700, 0x7ff, 0xfffe, 0xffff]),
            Kind::Many if rng.one_in(4) => return rng.bits() as u16,
            Kind::Many | Kind::Full => rng.below(MOST + 1),
            Kind::Rising => rng.below(self.kept.len() + 2),
        };
        let step = if self.kind == Kind::Rising { 1 } else { self.step };
        self.begin.wrapping_add(step.wrapping_mul(place as u16))
    }

    /// One of the sheets that are kept.
    fn known(&mut self) -> Option<u16> {
        let from = self.source.rng.bits() as u16;
        let behind = self.kept.range(from..).next().or_else(|| self.kept.iter().next());
        behind.map(|(sheet, _)| *sheet)
    }

    /// An ordinary pose, one with a number that is not ordinary, or any.
    fn pose(&mut self) -> [Float; 8] {
        let any = if self.wild { 2 } else { 40 };
        if self.source.rng.one_in(any) {
            return self.source.pose();
        }
        let mut pose = self.ordinary();
        if self.source.rng.one_in(any) {
            let place = self.source.rng.below(8);
            pose[place] = self.source.special();
        }
        pose
    }

    fn ordinary(&mut self) -> [Float; 8] {
        let [w, x, y, z] = self.source.unit_quat(1.0);
        let [t0, t1, t2] = self.source.numbers(Mood::Ordinary);
        [w, x, y, z, t0, t1, t2, self.source.rng.between(-0.5, 0.5)]
    }
}

/// A new sheet's take: mostly a small one, so that there is room above it.
fn first(rng: &mut Rng) -> u16 {
    match rng.below(8) {
        0 => rng.pick(&ENDS),
        1 => rng.bits() as u16,
        _ => rng.below(4) as u16,
    }
}

/// A take of a sheet that is kept: later, older or the same, often by one, by one byte, or with its
/// bytes exchanged. A much later one is rare: what is kept never falls, and needs room above it.
fn another(kept: u16, rng: &mut Rng) -> u16 {
    let next = kept.saturating_add(1);
    let other = 1 + rng.below(255) as u16;
    let take = match rng.below(16) {
        0 => kept,
        1 => kept.wrapping_sub(1),
        2 => kept ^ other,
        3 => kept ^ other << 8,
        4 => kept.swap_bytes(),
        5 => kept ^ 1 << rng.below(16),
        6 => rng.pick(&ENDS),
        7 => (usize::from(kept) * rng.below(256) / 256) as u16,
        8 => rng.bits() as u16,
        _ => next,
    };
    match take > next && !rng.one_in(40) {
        true => next,
        false => take,
    }
}

/// A number apart from this one in one bit, in its order of bytes, or by one.
fn beside(sheet: u16, rng: &mut Rng) -> u16 {
    match rng.below(4) {
        0 => sheet.swap_bytes(),
        1 => sheet.wrapping_add(1),
        2 => sheet.wrapping_sub(1),
        _ => sheet ^ 1 << rng.below(16),
    }
}

fn put_ask(sheet: u16, out: &mut Vec<u8>) {
    out.extend_from_slice(b"SQ");
    out.extend_from_slice(&sheet.to_le_bytes());
}
