//! The frames of bindings/rust for tests/bindings: reads records of four 16-bit numbers from standard
//! input, from and to of two poses, and for each of exp, mul, inverse, mul_inv, inv_mul and renormalize
//! writes three: 0 and the frames that it gives, or the refusal's number and zeros.

use sim3::*;
use std::io::{self, Read, Write};

fn encode(answer: Result<Pose, Refusal>) -> [u16; 3] {
    match answer {
        Ok(pose) => [0, pose.from, pose.to],
        Err(refusal) => [refusal.number() as u16, 0, 0],
    }
}

fn answers(record: &[u16]) -> [[u16; 3]; 6] {
    let numbers = [1.0, 0.5, 0.25, 0.125, 1.0, 2.0, 3.0, 0.5];
    let x = Pose { numbers, from: record[0], to: record[1] };
    let y = Pose { numbers, from: record[2], to: record[3] };
    let tau = Tangent([0.1, 0.2, 0.3, 1.0, 2.0, 3.0, 0.5]);
    let mut renormalized = x;
    renormalize(&mut renormalized);
    [
        encode(Ok(exp(&tau, &host::tangent_values(&tau), x.from, x.to))),
        encode(mul(&x, &y, host::up(&x))),
        encode(Ok(inverse(&x, host::down(&x)))),
        encode(mul_inv(&x, &y, host::ds(&x, &y))),
        encode(inv_mul(&x, &y, host::down(&y))),
        encode(Ok(renormalized)),
    ]
}

fn main() -> io::Result<()> {
    let mut bytes = Vec::new();
    io::stdin().read_to_end(&mut bytes)?;
    let words: Vec<u16> = bytes.chunks_exact(2).map(|b| u16::from_le_bytes([b[0], b[1]])).collect();
    let written: Vec<u8> = words
        .chunks_exact(4)
        .flat_map(|record| answers(record).concat())
        .flat_map(|word| word.to_le_bytes())
        .collect();
    io::stdout().write_all(&written)
}
