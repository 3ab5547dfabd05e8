//! The order of tangents of bindings/rust for tests/bindings. `compare` reads pairs of tangents, 14
//! patterns each, and writes the order of each pair, a word. `sort` reads lists, each a count and so
//! many patterns, a multiple of seven, and writes for each the refusal's number or 0, and what the list
//! then holds.

use sim3::{compare_tangents, sort_tangents, Tangent};
use std::io::{self, Read, Write};

fn tangent(words: &[u64]) -> Tangent {
    Tangent(std::array::from_fn(|i| f64::from_bits(words[i])))
}

fn compare(words: &[u64]) -> Vec<u64> {
    let order = |pair: &[u64]| compare_tangents(&tangent(&pair[..7]), &tangent(&pair[7..]));
    words.chunks_exact(14).map(|pair| order(pair) as i64 as u64).collect()
}

fn sort(mut words: &[u64]) -> Vec<u64> {
    let mut answers = Vec::new();
    while let Some((&count, rest)) = words.split_first() {
        let (numbers, others) = rest.split_at(count as usize);
        let mut list: Vec<Tangent> = numbers.chunks_exact(7).map(tangent).collect();
        answers
            .push(sort_tangents(&mut list).map_or_else(|refusal| refusal.number() as u64, |()| 0));
        answers.extend(list.iter().flat_map(|tau| tau.0).map(|x| x.to_bits()));
        words = others;
    }
    answers
}

fn main() -> io::Result<()> {
    let mut bytes = Vec::new();
    io::stdin().read_to_end(&mut bytes)?;
    let words: Vec<u64> =
        bytes.chunks_exact(8).map(|b| u64::from_le_bytes(b.try_into().unwrap())).collect();
    let answers = match std::env::args().nth(1).as_deref() {
        Some("compare") => compare(&words),
        _ => sort(&words),
    };
    io::stdout().write_all(&answers.iter().flat_map(|w| w.to_le_bytes()).collect::<Vec<u8>>())
}
