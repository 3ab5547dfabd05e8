//! Checks of the oracle itself: the paper's proved examples, that a wrong reading stops, the pair
//! against two single evaluations, the public way to the block Jacobians against the private one,
//! AR's bytes against the arm that is taken, and the handed-in values against the same Rust with the
//! host's functions.
//!
//! `selfcheck SEED COUNT` runs every comparison on COUNT generated inputs.

mod arms;
mod examples;
mod plain;
mod signs;
mod stops;

use helicoid_linalg::float::Float;
use oracle::inputs::Source;
use std::process::ExitCode;

/// The same numbers: the same bits, or both NaN.
fn same(a: &[Float], b: &[Float]) -> bool {
    let one = |(x, y): (&Float, &Float)| x.to_bits() == y.to_bits() || (x.is_nan() && y.is_nan());
    a.len() == b.len() && a.iter().zip(b).all(one)
}

/// A comparison on one generated input: what differs, if anything does.
type Comparison = fn(&mut Source) -> Result<(), String>;

const COMPARISONS: [(&str, Comparison); 9] = [
    ("scaled pair = two single signs", signs::scaled_pair),
    ("series pair with free k = two single signs", signs::series_pair),
    ("v alone = v of the full coefficients", signs::v_alone),
    ("blocks: private function = public ones", signs::blocks),
    ("exponential of the negative = conjugate", signs::exponential),
    ("AR's bytes = the arm that the Rust takes", arms::bytes),
    ("host's functions, coefficients", plain::coefficients),
    ("host's functions, exponential", plain::exponential),
    ("host's functions, block and inverse", plain::blocks),
];

fn main() -> ExitCode {
    let mut args = std::env::args().skip(1).map(|a| a.parse::<u64>().expect("a number"));
    let (seed, count) = (args.next().expect("SEED"), args.next().expect("COUNT"));
    let mut failed = examples::failed() + stops::failed();
    for (name, compare) in COMPARISONS {
        let mut source = Source::new(seed);
        let found = (0..count).find_map(|_| compare(&mut source).err());
        match found {
            None => println!("ok      {name}: {count} inputs"),
            Some(difference) => {
                println!("FAILED  {name}: {difference}");
                failed += 1;
            }
        }
    }
    if failed == 0 {
        ExitCode::SUCCESS
    } else {
        ExitCode::FAILURE
    }
}
