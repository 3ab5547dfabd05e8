//! Searches for the rare squared angles at which a circle function's first terms, those of its
//! short arm, and its whole row round apart. Only there can a short arm taken at the wrong place be
//! seen.
//!
//! `rare SEED TRIES` prints, for each range, the angles found. `inputs/angles.rs` keeps a list.
//! At the narrow width `rare-f32 0 MOST` tries every number in place of so many random ones, and
//! prints the first MOST of each row, wherever they lie.

use helicoid::coefficients::{CIRCLE_ROWS, CIRCLE_TERMS};
use helicoid_linalg::float::{at_width, by_width, Float, SINGLE};
use oracle::inputs::Rng;

const SHORT_TERMS: usize = by_width(5, 3);

const MOST_SHOWN: usize = 24;

/// Beyond every short limit.
const WHOLE: Float = 0.0625;

/// The group of five takes its short arms below the first, `exp_coeffs` below the second; the
/// members' own short limits.
const FIVE: Float = at_width(0x3f65_a3f0_2498_4d68, 0x3a83_126f);
const EXP: Float = at_width(0x3f75_6f30_5d5f_8ce6, 0x3afa_78f1);
const A: Float = at_width(0x3f66_6ee1_d8b3_520e, 0x3a83_126f);
const B: Float = at_width(0x3f67_4142_c42e_0582, 0x3ab5_30b7);
const K: Float = at_width(0x3f7c_9548_b66b_624b, 0x3b66_dd02);

/// A row's name and place, and the range: below a group's limit, or from there to the row's own.
const RANGES: [(&str, usize, Float, Float); 11] = [
    ("k below the five's limit", 0, 0.0, FIVE),
    ("cos below the five's limit", 1, 0.0, FIVE),
    ("a below the five's limit", 2, 0.0, FIVE),
    ("b below the five's limit", 3, 0.0, FIVE),
    ("d below the five's limit", 4, 0.0, FIVE),
    ("k from the five's limit to exp_coeffs'", 0, FIVE, EXP),
    ("cos from the five's limit to exp_coeffs'", 1, FIVE, EXP),
    ("a from the five's limit to its own", 2, FIVE, A),
    ("b from the five's limit to its own", 3, FIVE, B),
    ("k from exp_coeffs' limit to its own", 0, EXP, K),
    ("d from the five's limit to b's", 4, FIVE, B),
];

/// `horner` of `kernel.rs`: from the last term, no fused operation.
fn horner(terms: &[Float], z: Float) -> Float {
    let (last, rest) = terms.split_last().expect("a row");
    rest.iter().rev().fold(*last, |p, t| t + z * p)
}

/// Whether the short arm's terms and the whole row give different numbers.
fn apart(row: usize, z: Float) -> bool {
    let whole = &CIRCLE_ROWS[row][..CIRCLE_TERMS[row]];
    horner(&whole[..SHORT_TERMS], z) != horner(whole, z)
}

fn say(name: &str, tries: u64, found: impl Iterator<Item = Float>) {
    let found: Vec<_> = found.map(|z| format!("{:#x}", z.to_bits())).collect();
    let shown = found.iter().take(MOST_SHOWN).cloned().collect::<Vec<_>>().join(", ");
    println!("{name}: {} of {tries}: {shown}", found.len());
}

fn main() {
    let mut args = std::env::args().skip(1).map(|a| a.parse::<u64>().expect("a number"));
    let (seed, tries) = (args.next().expect("SEED"), args.next().expect("TRIES"));
    if SINGLE {
        for (row, name) in ["k", "cos", "a", "b", "d"].into_iter().enumerate() {
            let all = (0..Float::to_bits(WHOLE)).map(Float::from_bits);
            say(name, tries, all.filter(|z| apart(row, *z)).take(tries as usize));
        }
        return;
    }
    let mut rng = Rng::new(seed);
    for (name, row, low, high) in RANGES {
        let low = low.max(0.5 * high);
        say(name, tries, (0..tries).map(|_| rng.between(low, high)).filter(|z| apart(row, *z)));
    }
}
