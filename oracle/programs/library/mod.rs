//! The library functions that no mark of the job program reaches: one table with each function's
//! number, its inputs and outputs in order, and the published Rust that answers it. `judge-lib`
//! answers by it, `gen` makes inputs by it, and README.md's table is printed from it.

mod block;
mod coefficients;
mod linear;
mod pose;
mod rotation;

use helicoid::judge::layout::{Reader, Writer, WIDTH};
use helicoid_linalg::handed::finish;

/// What an input or output is: how many numbers, and what a generator puts there.
#[derive(Clone, Copy, Debug, PartialEq, Eq)]
pub enum Part {
    /// A number that may be any.
    Number,
    /// The number 1 or 0.
    Flag,
    /// A term count, a whole number in 64 bits.
    Count,
    /// A row or column, a whole number in 64 bits.
    Index,
    Vector,
    Matrix,
    Quat,
    /// The handed-in root of a quaternion's squared norm.
    Root,
    Pose,
    /// A handed-in exponential for the pose before it.
    Exponential,
    Sigma,
    /// A squared angle.
    Angle,
    /// A rotation vector.
    Phi,
    Tangent,
    /// The ten values of the `σ` and `z`, or of the tangent, before them.
    Values,
    /// The ten values of the negated tangent.
    ValuesOfNegative,
    /// SO(3)'s left Jacobian at `φ`, its inverse, and the same two at `−φ`.
    Jacobian,
    JacobianInverse,
    JacobianOfNegative,
    JacobianInverseOfNegative,
    /// `v0 v1 v2 w0 w1 w2 dv1 dv2 χΔ`.
    Coefficients,
    /// `v0 v1 v2 χΔ`.
    Coefficients4,
    /// `a, b, c, f, e`.
    Block,
    /// 3×7, column by column.
    Wide,
    /// 7×7, column by column.
    Square,
    /// A list. In an input its length, a whole number in 64 bits, then the numbers; in an output
    /// the numbers alone.
    List,
}

use Part::*;

impl Part {
    /// The numbers of a part; for a list, its length alone.
    pub const fn count(self) -> usize {
        match self {
            Number | Flag | Count | Index | Root | Exponential | Sigma | Angle | List => 1,
            Vector | Phi => 3,
            Quat | Coefficients4 => 4,
            Tangent => 7,
            Pose => 8,
            Matrix | Coefficients => 9,
            Jacobian | JacobianInverse | JacobianOfNegative | JacobianInverseOfNegative => 9,
            Values | ValuesOfNegative => 10,
            Wide => 21,
            Block => 31,
            Square => 49,
        }
    }

    /// The bytes of a part: 8 for a whole number.
    pub const fn bytes(self) -> usize {
        self.count() * if matches!(self, Count | Index | List) { 8 } else { WIDTH }
    }
}

/// Parts with their names.
pub type Parts = &'static [(&'static str, Part)];

type Answer = fn(&mut Reader<'_>, &mut Writer<'_>) -> Result<(), u8>;

/// A function of the table.
pub struct Entry {
    pub id: u8,
    pub name: &'static str,
    pub input: Parts,
    pub output: Parts,
    /// The refusals that its call can meet.
    pub refusals: &'static [u8],
    pub answer: Answer,
}

impl Entry {
    /// An entry that refuses nothing.
    const fn new(id: u8, name: &'static str, input: Parts, output: Parts, answer: Answer) -> Self {
        Self { id, name, input, output, refusals: &[], answer }
    }

    const fn refusing(self, refusals: &'static [u8]) -> Self {
        Self { refusals, ..self }
    }

    /// The bytes before a list's numbers.
    pub fn bytes_in(&self) -> usize {
        bytes(self.input)
    }

    /// Whether the last input is a list.
    pub fn takes_list(&self) -> bool {
        matches!(self.input.last(), Some((_, List)))
    }
}

/// The bytes of several parts.
pub fn bytes(parts: Parts) -> usize {
    parts.iter().map(|(_, p)| p.bytes()).sum()
}

/// Every function, in the order of its number.
pub fn entries() -> impl Iterator<Item = &'static Entry> {
    let groups =
        [linear::ENTRIES, rotation::ENTRIES, coefficients::ENTRIES, pose::ENTRIES, block::ENTRIES];
    groups.into_iter().flatten()
}

/// The function with this number.
pub fn entry(id: u8) -> Option<&'static Entry> {
    entries().find(|e| e.id == id)
}

/// A list in a record has at most so many numbers, refused ones included.
const MOST_IN_LIST: u64 = 100_000;

/// Where the whole record at the front of `bytes` ends, if it is all there.
fn record_end(e: &Entry, bytes: &[u8]) -> Result<Option<usize>, String> {
    let fixed = 1 + e.bytes_in();
    if bytes.len() < fixed {
        return Ok(None);
    }
    if !e.takes_list() {
        return Ok(Some(fixed));
    }
    let n = Reader(&bytes[fixed - 8..]).word();
    if n > MOST_IN_LIST {
        return Err(format!("{}: a list of {n} numbers", e.name));
    }
    let end = fixed + WIDTH * n as usize;
    Ok((bytes.len() >= end).then_some(end))
}

/// Writes the answer to the record at the front of `bytes` and says how many bytes it is; nothing
/// where it is not all there.
pub fn answer(record: &[u8], out: &mut Vec<u8>) -> Result<Option<usize>, String> {
    let e = entry(record[0]).ok_or(format!("no function has the number {}", record[0]))?;
    let Some(end) = record_end(e, record)? else {
        return Ok(None);
    };
    let before = out.len();
    out.push(0);
    match (e.answer)(&mut Reader(&record[1..end]), &mut Writer(out)) {
        Ok(()) => {
            let expected = 1 + bytes(e.output);
            assert!(e.takes_list() || out.len() == before + expected, "{}: length", e.name);
        }
        Err(number) => {
            out.truncate(before);
            out.push(number);
        }
    }
    finish();
    Ok(Some(end))
}

/// The inputs or outputs as README.md's table shows them: name, and how many if there are several.
fn listed(parts: Parts, list: &str) -> String {
    let shown: Vec<String> = parts
        .iter()
        .map(|(name, part)| match (part, part.count()) {
            (Count | Index, _) => format!("{name} (u64)"),
            (List, _) => format!("{name} ({list})"),
            (_, 1) => name.to_string(),
            (_, n) => format!("{name} ({n})"),
        })
        .collect();
    shown.join(", ")
}

/// The table of README.md.
pub fn table() -> String {
    let mut text = String::from("| id | function | in | out | refusals |\n|---|---|---|---|---|\n");
    for e in entries() {
        let refusals: Vec<String> = e.refusals.iter().map(u8::to_string).collect();
        let input = listed(e.input, "n as u64, then n");
        let output = listed(e.output, "n");
        text +=
            &format!("| {} | {} | {input} | {output} | {} |\n", e.id, e.name, refusals.join(", "));
    }
    text
}
