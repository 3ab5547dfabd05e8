//! Bursts of both sides in turn, and their times.

use crate::inputs::list_at;
use crate::rows::{Row, Step};
use helicoid_linalg::float::Float;
use std::hint::black_box;
use std::time::Instant;

/// Bursts of each side that a run counts, and those before them that it does not.
const BURSTS: usize = 200;
const WARM_UP: usize = 20;

/// One pass of a side over its inputs. Each answer is written to the front of `out`, or, if `apart`, after
/// the one before it. Returns the sum of the calls' results.
pub fn pass(steps: &[Step], out: &mut [Float], apart: bool) -> u32 {
    let mut refusals = 0;
    let mut base = 0;
    for step in steps {
        let (x, wide) = (step.inputs.numbers.as_ptr(), step.inputs.width);
        let each = if apart { steps.len() * step.width } else { 0 };
        for i in 0..step.inputs.count() {
            assert!(base + i * each + step.width <= out.len());
            // SAFETY: the inputs have whole rows, and the assertion is the output's bound.
            refusals +=
                unsafe { (step.call)(x.add(i * wide), out.as_mut_ptr().add(base + i * each)) };
        }
        base += if apart { step.width } else { 0 };
    }
    refusals
}

/// How many numbers a side's answers have.
pub fn answers_len(steps: &[Step]) -> usize {
    steps.iter().map(|s| s.width * s.inputs.count()).sum()
}

/// Copies the points of a list call to `out`, where it works on them in place.
pub fn prepare(steps: &[Step], out: &mut [Float]) {
    for step in steps {
        if let Some(off) = step.list {
            out[off..step.width].copy_from_slice(&step.inputs.numbers[list_at(off)..]);
        }
    }
}

/// Nanoseconds of one pass, from a burst of passes.
fn burst(steps: &[Step], passes: usize, out: &mut [Float]) -> f64 {
    prepare(steps, out);
    let begin = Instant::now();
    for _ in 0..passes {
        black_box(pass(steps, black_box(out), false));
    }
    begin.elapsed().as_nanos() as f64 / passes as f64
}

/// A row's bursts in one run: nanoseconds for one input of each side.
#[derive(Default)]
pub struct Times {
    pub over: Vec<f64>,
    pub under: Vec<f64>,
}

/// One run of a row: the sides in turn, each first in every second round.
pub fn run(row: &Row) -> Times {
    let mut out = vec![0.0; answers_len(&row.over).max(answers_len(&row.under))];
    let count = row.over[0].inputs.count() as f64;
    let mut times = Times::default();
    for round in 0..WARM_UP + BURSTS {
        let mut time = |steps: &[Step]| burst(steps, row.passes, &mut out) / count;
        let (over, under) = if round % 2 == 0 {
            let over = time(&row.over);
            (over, time(&row.under))
        } else {
            let under = time(&row.under);
            (time(&row.over), under)
        };
        if round >= WARM_UP {
            times.over.push(over);
            times.under.push(under);
        }
    }
    times
}

pub fn least(numbers: &[f64]) -> f64 {
    numbers.iter().copied().fold(f64::INFINITY, f64::min)
}

pub fn most(numbers: &[f64]) -> f64 {
    numbers.iter().copied().fold(0.0, f64::max)
}

/// The number below which a share of them lies.
pub fn quantile(numbers: &[f64], share: f64) -> f64 {
    let mut sorted = numbers.to_vec();
    sorted.sort_by(f64::total_cmp);
    sorted[((sorted.len() - 1) as f64 * share).round() as usize]
}
