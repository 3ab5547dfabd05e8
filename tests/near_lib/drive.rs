//! Calls `nearest_arm` of bindings/rust for tests/near, at f32 where `single` is set: reads patterns of
//! sigma and z from standard input, 8 bytes each, and for each pair writes four words: the refusal's
//! number or 0, the count, the direction and the arm.

#[cfg(single)]
use sim3::f32::nearest_arm;
#[cfg(not(single))]
use sim3::nearest_arm;
use sim3::Direction;
use std::io::{Read, Write};

#[cfg(single)]
fn of_bits(word: u64) -> f32 {
    f32::from_bits(word as u32)
}

#[cfg(not(single))]
fn of_bits(word: u64) -> f64 {
    f64::from_bits(word)
}

fn main() -> std::io::Result<()> {
    let mut input = Vec::new();
    std::io::stdin().read_to_end(&mut input)?;
    let words: Vec<u64> = input.chunks_exact(8).map(|b| u64::from_le_bytes(b.try_into().unwrap())).collect();
    let answer = |sigma, z| match nearest_arm(sigma, z) {
        Ok(Some(near)) => [0, near.count, (near.direction == Direction::Up) as u64, near.arm.into()],
        Ok(None) => [0; 4],
        Err(refusal) => [refusal.number().into(), 0, 0, 0],
    };
    let answers: Vec<u8> = words
        .chunks_exact(2)
        .flat_map(|w| answer(of_bits(w[0]), of_bits(w[1])))
        .flat_map(u64::to_le_bytes)
        .collect();
    std::io::stdout().write_all(&answers)
}
