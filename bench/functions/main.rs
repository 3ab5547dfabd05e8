//! The functions of the port and of the Rust on the same inputs, in turn, as ratios with their
//! spread. `bench/run` builds it for each width, with `--cfg single` for `f32`, and runs it; see
//! docs/PERFORMANCE.md.
//!
//! usage: functions [RUNS]     whole runs over the table, 5 if not said
//!        functions counts     one pass of each side for callgrind; `bench/counts` runs it

mod counts;
mod given;
mod inputs;
mod layout;
mod port;
mod rows;
mod rust;
mod timing;

use helicoid_linalg::float::{by_width, Float};
use rows::Row;
use std::process::ExitCode;
use timing::{answers_len, least, most, pass, prepare, quantile, run, Times};

fn tables() -> Vec<(&'static str, Vec<Row>)> {
    let [own, two, pair] = rows::pairs();
    vec![
        ("Poses, port over Rust", rows::poses()),
        ("Lists of points, port over Rust", rows::lists()),
        ("Coefficients at one sign, port over Rust", rows::coefficients()),
        ("The scaled pair over two single calls of the port", own),
        ("The scaled pair over two single calls of the Rust", two),
        ("The scaled pair over the Rust's pair", pair),
        ("Blocks, port over Rust", rows::blocks()),
    ]
}

/// The same number: the same bits, or both NaN.
fn same(a: &Float, b: &Float) -> bool {
    a.to_bits() == b.to_bits() || (a.is_nan() && b.is_nan())
}

/// Both sides of a row give the same numbers and refuse nothing.
fn check(row: &Row) -> Result<(), String> {
    let name = format!("{} {}", row.what, row.arm);
    let mut answers = [&row.over, &row.under].map(|steps| vec![0.0; answers_len(steps)]);
    for (steps, out) in [&row.over, &row.under].into_iter().zip(&mut answers) {
        prepare(steps, out);
        let refused = pass(steps, out, true);
        if refused != 0 {
            return Err(format!("{name}: a call refuses an ordinary input"));
        }
    }
    let [a, b] = &answers;
    match (0..a.len()).find(|&i| !same(&a[i], &b[i])) {
        _ if a.len() != b.len() => Err(format!("{name}: answers of different lengths")),
        Some(i) => Err(format!("{name}: number {i} is {:e} and {:e}", a[i], b[i])),
        None => Ok(()),
    }
}

/// A row's line: least times, the ratio of least times (middle of the runs), its range over the
/// runs, and the quartiles of the bursts' ratios.
fn line(row: &Row, runs: &[Times]) -> String {
    let of =
        |f: fn(&Times) -> &Vec<f64>| least(&runs.iter().map(|t| least(f(t))).collect::<Vec<_>>());
    let (over, under) = (of(|t| &t.over), of(|t| &t.under));
    let ratios: Vec<f64> = runs.iter().map(|t| least(&t.over) / least(&t.under)).collect();
    let bursts: Vec<f64> =
        runs.iter().flat_map(|t| t.over.iter().zip(&t.under).map(|(a, b)| a / b)).collect();
    format!(
        "| {} | {} | {over:.1} | {under:.1} | {:.2} | {:.2} to {:.2} | {:.2}, {:.2}, {:.2} |",
        row.what,
        row.arm,
        quantile(&ratios, 0.5),
        least(&ratios),
        most(&ratios),
        quantile(&bursts, 0.25),
        quantile(&bursts, 0.5),
        quantile(&bursts, 0.75),
    )
}

fn print_times(tables: &[(&str, Vec<Row>)], runs: usize) {
    let mut times: Vec<Vec<Times>> = Vec::new();
    for _ in 0..runs {
        for (i, row) in tables.iter().flat_map(|(_, rows)| rows).enumerate() {
            times.resize_with(times.len().max(i + 1), Vec::new);
            times[i].push(run(row));
        }
    }
    let mut times = times.iter();
    for (title, rows) in tables {
        println!("\n{title}{}\n", by_width("", ", at f32"));
        println!("| what | arm | first, ns | second, ns | ratio | over {runs} runs | quartiles |");
        println!("|---|---|---|---|---|---|---|");
        for (row, times) in rows.iter().zip(&mut times) {
            println!("{}", line(row, times));
        }
    }
}

fn main() -> ExitCode {
    let word = std::env::args().nth(1).unwrap_or("5".into());
    let tables = tables();
    for row in tables.iter().flat_map(|(_, rows)| rows) {
        if let Err(message) = check(row) {
            eprintln!("bench: {message}: the sides do not do the same work, nothing is timed");
            return ExitCode::FAILURE;
        }
    }
    match (word.as_str(), word.parse()) {
        ("counts", _) => counts::run(&tables),
        (_, Ok(runs @ 1..=100)) => print_times(&tables, runs),
        _ => {
            eprintln!("usage: functions [RUNS from 1 to 100] | functions counts");
            return ExitCode::from(2);
        }
    }
    ExitCode::SUCCESS
}
