//! The running join of bindings/rust for tests/bindings. `history` reads events: the word 0, eight
//! numbers, from, to and up for a push, or the word 1 and n; and writes for each the refusal's number
//! or 0, 1 where there is a pose, its numbers and its frames. `all` reads poses, eight numbers, from and
//! to, and writes them renormalised.

use sim3::{renormalize_all, Pose, Running};
use std::io::{self, Read, Write};

fn pose(words: &[u64]) -> Pose {
    let numbers = std::array::from_fn(|i| f64::from_bits(words[i]));
    Pose { numbers, from: words[8] as u16, to: words[9] as u16 }
}

fn words(x: &Pose) -> impl Iterator<Item = u64> {
    x.numbers.map(f64::to_bits).into_iter().chain([x.from as u64, x.to as u64])
}

fn history(mut input: &[u64]) -> Vec<u64> {
    let mut running = Running::new();
    let mut answers = Vec::new();
    while let Some((&event, rest)) = input.split_first() {
        let status = if event == 1 {
            running.every(rest[0] as u16);
            input = &rest[1..];
            0
        } else {
            input = &rest[11..];
            match running.push(&pose(rest), f64::from_bits(rest[10])) {
                Ok(x) => {
                    assert!(running.pose().map(|y| words(&y).eq(words(&x))) == Some(true));
                    0
                }
                Err(refusal) => {
                    assert!(refusal.to_string().contains("the running pose starts from frame"));
                    refusal.number() as u64
                }
            }
        };
        let pose_now = running.pose();
        answers.extend([status, pose_now.is_some() as u64]);
        answers.extend(words(&pose_now.unwrap_or(Pose { numbers: [0.0; 8], from: 0, to: 0 })));
    }
    answers
}

fn all(input: &[u64]) -> Vec<u64> {
    let mut poses: Vec<Pose> = input.chunks_exact(10).map(pose).collect();
    renormalize_all(&mut poses);
    poses.iter().flat_map(words).collect()
}

fn main() -> io::Result<()> {
    let mut bytes = Vec::new();
    io::stdin().read_to_end(&mut bytes)?;
    let input: Vec<u64> =
        bytes.chunks_exact(8).map(|b| u64::from_le_bytes(b.try_into().unwrap())).collect();
    let answers = match std::env::args().nth(1).as_deref() {
        Some("history") => history(&input),
        _ => all(&input),
    };
    io::stdout().write_all(&answers.iter().flat_map(|w| w.to_le_bytes()).collect::<Vec<u8>>())
}
