//! The sheets of bindings/rust for tests/bindings. Reads shots, each a sheet, a take, eight numbers, from
//! and to, and writes for each the refusal's number or 0, how and the take before; then, of the same
//! sheet, the refusal's number or 0, the take, the numbers and the frames.

use sim3::{Pose, Sheets, Shelved};
use std::io::{self, Read, Write};

fn shot(sheets: &mut Sheets, words: &[u64]) -> Vec<u64> {
    let sheet = words[0] as u16;
    let numbers = std::array::from_fn(|i| f64::from_bits(words[2 + i]));
    let pose = Pose { numbers, from: words[10] as u16, to: words[11] as u16 };
    let mut answers = match sheets.put(sheet, words[1] as u16, &pose) {
        Ok(Shelved::New) => vec![0, 1, 0],
        Ok(Shelved::Replaced(before)) => vec![0, 2, before as u64],
        Ok(Shelved::Older(before)) => vec![0, 3, before as u64],
        Err(refusal) => vec![refusal.number() as u64, 0, 0],
    };
    match sheets.get(sheet) {
        Ok((take, x)) => {
            answers.extend([0, take as u64]);
            answers.extend(x.numbers.map(f64::to_bits));
            answers.extend([x.from as u64, x.to as u64]);
        }
        Err(refusal) => {
            answers.extend([refusal.number() as u64, 0]);
            answers.extend([0; 10]);
        }
    }
    answers
}

fn main() -> io::Result<()> {
    let mut bytes = Vec::new();
    io::stdin().read_to_end(&mut bytes)?;
    let words: Vec<u64> =
        bytes.chunks_exact(8).map(|b| u64::from_le_bytes(b.try_into().unwrap())).collect();
    let mut sheets = Sheets::new();
    let answers: Vec<u64> = words.chunks_exact(12).flat_map(|w| shot(&mut sheets, w)).collect();
    io::stdout().write_all(&answers.iter().flat_map(|w| w.to_le_bytes()).collect::<Vec<u8>>())
}
