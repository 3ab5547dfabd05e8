//! The square root of bindings/rust for tests/bindings. `parts` reads patterns of doubles from standard
//! input, 8 bytes each, and for each writes five words: the number of the refusal or 0, the whole root,
//! the remainder, the exponent and the nearest double's pattern, zeros where it is refused. `values`
//! reads tangents of 7 doubles, says each whose ten values, or whose Exp by them, have other bits by
//! `host::root` than by `f64::sqrt`, and then has the exit status 1.

use sim3::{exp, host, root, Tangent};
use std::io::{self, Read, Write};
use std::process::ExitCode;

fn parts(words: &[u64]) -> Vec<u64> {
    let answer = |z: f64| match root(z) {
        Ok(p) => [0, p.root, p.remainder, p.exponent as u64, p.nearest.to_bits()],
        Err(refusal) => [refusal.number() as u64, 0, 0, 0, 0],
    };
    words.iter().flat_map(|&b| answer(f64::from_bits(b))).collect()
}

/// The bits of the ten values and of Exp by them.
fn by(root: impl Fn(f64) -> f64, tau: &Tangent) -> Vec<u64> {
    let values = host::values_by(root, tau[6], host::norm_sq(&host::phi(tau)));
    values.iter().chain(&exp(tau, &values, 0, 0).numbers).map(|x| x.to_bits()).collect()
}

/// How many tangents have other bits.
fn values(words: &[u64]) -> usize {
    let mut wrong = 0;
    for record in words.chunks_exact(7) {
        let tau = Tangent(std::array::from_fn(|i| f64::from_bits(record[i])));
        if by(f64::sqrt, &tau) != by(host::root, &tau) {
            println!("tangent {tau:?}: other bits by host::root");
            wrong += 1;
        }
    }
    wrong
}

fn main() -> io::Result<ExitCode> {
    let mut bytes = Vec::new();
    io::stdin().read_to_end(&mut bytes)?;
    let words: Vec<u64> =
        bytes.chunks_exact(8).map(|b| u64::from_le_bytes(b.try_into().unwrap())).collect();
    match std::env::args().nth(1).as_deref() {
        Some("parts") => {
            let written: Vec<u8> = parts(&words).iter().flat_map(|w| w.to_le_bytes()).collect();
            io::stdout().write_all(&written)?;
            Ok(ExitCode::SUCCESS)
        }
        Some("values") => Ok(ExitCode::from((values(&words) > 0) as u8)),
        _ => Ok(ExitCode::from(2)),
    }
}
