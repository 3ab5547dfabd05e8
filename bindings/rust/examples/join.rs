//! The engine from Rust: joins two runs of shots by a similarity, and frames keep the order of the factors right;
//! moves the points of a staff line, computes Jacobian blocks, a square root with its remainder and a line in
//! singles, and shows refusals. Compares every answer with numbers known by hand; exit status 1 and a message if one
//! is wrong. examples/rust/run builds and runs it.

use sim3::{f32 as single, host, Block, Pose, Refusal, Running, Tangent, Values};
use std::f64::consts::{FRAC_1_SQRT_2 as HALF_ROOT, FRAC_PI_2, LN_2};
use std::process::ExitCode;

// Frames: the two runs, a shot of both, and a shot of the second.
const FIRST: u16 = 1;
const SECOND: u16 = 2;
const SHOT: u16 = 10;
const NEXT: u16 = 11;

/// Prints a list; whether it is the one known by hand, within 1e-12.
fn known(what: &str, found: &[f64], expected: &[f64]) -> bool {
    known_within(1e-12, what, found, expected)
}

/// The same, within `most`.
fn known_within(most: f64, what: &str, found: &[f64], expected: &[f64]) -> bool {
    println!("{what}: {found:.6?}");
    let good = found.len() == expected.len()
        && found.iter().zip(expected).all(|(x, y)| (x - y).abs() <= most);
    if !good {
        println!("{what}: WRONG: {found:?} and not {expected:?}");
    }
    good
}

/// The same of a pose and its frames.
fn known_pose(what: &str, found: &Pose, expected: &Pose) -> bool {
    println!("{what}: from frame {} to frame {}", found.from, found.to);
    let frames_equal = (found.from, found.to) == (expected.from, expected.to);
    if !frames_equal {
        println!("{what}: WRONG: the frames are not {} and {}", expected.from, expected.to);
    }
    known(what, &found.numbers, &expected.numbers) && frames_equal
}

/// The camera hand: a shot stands in both runs, at x in the first and at y in the second. X Y⁻¹ takes
/// the second run's places to the first's.
fn join_runs() -> Result<(Pose, bool), Refusal> {
    let turn = Tangent([0.0, 0.0, FRAC_PI_2, 0.0, 0.0, 0.0, LN_2]); // a quarter turn about z, and twice the size
    let turned = sim3::exp(&turn, &host::tangent_values(&turn), SHOT, FIRST);
    let shift = [1.0, 0.0, 0.0, 0.0, 10.0, 22.0, 30.0, 0.0];
    let shift = Pose { numbers: shift, from: FIRST, to: FIRST };
    let x = sim3::mul(&shift, &turned, host::up(&shift))?;
    let y = [1.0, 0.0, 0.0, 0.0, 1.0, 0.0, 0.0, 0.0];
    let y = Pose { numbers: y, from: SHOT, to: SECOND };
    let join = sim3::mul_inv(&x, &y, host::ds(&x, &y))?;
    let next = [1.0, 0.0, 0.0, 0.0, 2.0, 0.0, 0.0, 0.0];
    let next = Pose { numbers: next, from: NEXT, to: SECOND };
    let placed = sim3::mul(&join, &next, host::up(&join))?;
    let back = sim3::inv_mul(&placed, &join, host::down(&join))?;
    let numbers = [HALF_ROOT, 0.0, 0.0, HALF_ROOT, 10.0, 20.0, 30.0, LN_2];
    let expected = Pose { numbers, from: SECOND, to: FIRST };
    let numbers = [HALF_ROOT, 0.0, 0.0, HALF_ROOT, 10.0, 24.0, 30.0, LN_2];
    let good = [
        known_pose("join", &join, &expected),
        known_pose("next shot", &placed, &Pose { numbers, from: NEXT, to: FIRST }),
        known_pose("and back", &back, &next),
        refused("mul the wrong way round", 9, sim3::mul(&next, &join, host::up(&next))),
    ];
    Ok((join, good.iter().all(|&x| x)))
}

/// The page flattener: the points of a staff line.
fn move_line(join: &Pose) -> Result<bool, Refusal> {
    let line = [[0.0, 0.0, 0.0], [1.0, 0.0, 0.0], [2.0, 0.0, 0.0]];
    let mut moved = [[0.0; 3]; 3];
    sim3::act_many(join, host::up(join), line.as_flattened(), moved.as_flattened_mut())?;
    let expected = [10.0, 20.0, 30.0, 10.0, 22.0, 30.0, 10.0, 24.0, 30.0];
    let many = known("staff line", moved.as_flattened(), &expected);
    sim3::act_each(join, host::up(join), line.as_flattened(), moved.as_flattened_mut())?;
    Ok(known("point by point", moved.as_flattened(), &expected) && many)
}

/// A block times a tangent: the rows (a 0 0), (b c f), (0 0 e).
fn times(block: &Block, tau: &Tangent) -> Tangent {
    let mut out = Tangent([0.0; 7]);
    for row in 0..3 {
        out[3 + row] = block[27 + row] * tau[6];
        for k in 0..3 {
            out[row] += block[row + 3 * k] * tau[k];
            out[3 + row] += block[9 + row + 3 * k] * tau[k] + block[18 + row + 3 * k] * tau[3 + k];
        }
    }
    out[6] = block[30] * tau[6];
    out
}

/// The adjuster: both sides from one evaluation. Each block leaves its own tangent as it is.
fn adjust(join: &Pose) -> bool {
    let tau = Tangent([0.1, -0.2, 0.3, 1.0, 2.0, 3.0, 0.5]);
    let (jl, jl_inv) = host::rotation_jacobians(&host::phi(&tau));
    let pair = sim3::block_pair(&tau, &host::tangent_values(&tau), &jl, &jl_inv);
    let by = sim3::act_jacobians_left(join, host::up(join), &[1.0, 0.0, 0.0]);
    let good = [
        known("left", &times(&pair.left, &tau), &tau),
        known("left inverse", &times(&pair.left_inv, &tau), &tau),
        known("right", &times(&pair.right, &tau), &tau),
        known("right inverse", &times(&pair.right_inv, &tau), &tau),
        known("moved point by sigma", &by.sigma, &[10.0, 22.0, 30.0]),
    ];
    good.iter().all(|&x| x)
}

/// The cradle, whose host has no square root to rely on: the root of 2 with its remainder, and Exp with the
/// engine's root of z.
fn root_and_remainder() -> Result<bool, Refusal> {
    let two = sim3::root(2.0)?;
    let turn = Tangent([0.0, 0.0, FRAC_PI_2, 0.0, 0.0, 0.0, LN_2]);
    let z = host::norm_sq(&host::phi(&turn));
    let turned = sim3::exp(&turn, &host::values_by(host::root, turn[6], z), SHOT, FIRST);
    let found = [two.root as f64, two.remainder as f64, two.exponent as f64, two.nearest];
    let expected = [6369051672525772.0, 7192236498376048.0, -52.0, 1.4142135623730951];
    let pose = [HALF_ROOT, 0.0, 0.0, HALF_ROOT, 0.0, 0.0, 0.0, LN_2];
    Ok(known("root of 2", &found, &expected) & known("exp by that root", &turned.numbers, &pose))
}

/// The second camera, whose board sends singles: a line is turned and moved by the engine at f32.
fn in_singles() -> Result<bool, Refusal> {
    let turn = single::Tangent([0.0, 0.0, FRAC_PI_2 as f32, 0.0, 0.0, 0.0, LN_2 as f32]);
    let turned = single::exp(&turn, &single::host::tangent_values(&turn), SHOT, FIRST);
    let mut moved = [0.0; 6];
    single::act_many(&turned, single::host::up(&turned), &[1.0, 0.0, 0.0, 2.0, 0.0, 0.0], &mut moved)?;
    let expected = [0.0, 2.0, 0.0, 0.0, 4.0, 0.0];
    Ok(known_within(1e-6, "line at f32", &moved.map(f64::from), &expected))
}

/// The camera hand again, shot by shot: four quarter turns, each with a step along its own x, come back to
/// where they began.
fn chain() -> Result<bool, Refusal> {
    let shot =
        Pose { numbers: [HALF_ROOT, 0.0, 0.0, HALF_ROOT, 1.0, 0.0, 0.0, 0.0], from: FIRST, to: FIRST };
    let mut running = Running::new();
    running.every(2);
    let mut pose = running.push(&shot, 1.0)?;
    for _ in 1..4 {
        pose = running.push(&shot, host::up(&pose))?;
    }
    Ok(known("four shots", &pose.numbers, &[-1.0, 0.0, 0.0, 0.0, 0.0, 0.0, 0.0, 0.0]))
}

/// Shows a call that must be refused with this number.
fn refused<T>(what: &str, number: u32, answer: Result<T, Refusal>) -> bool {
    let found = match answer {
        Ok(_) => 0,
        Err(refusal) => {
            println!("{what}: {refusal}");
            refusal.number()
        }
    };
    if found != number {
        println!("{what}: WRONG: {found} and not refusal {number}");
    }
    found == number
}

fn refusals(join: &Pose) -> bool {
    let mut short = [0.0; 6];
    let good = [
        refused(
            "act_many with an out of six numbers",
            5,
            sim3::act_many(join, 2.0, &[0.0; 9], &mut short),
        ),
        refused(
            "act_many with seven numbers",
            5,
            sim3::act_many(join, 2.0, &[0.0; 7], &mut [0.0; 7]),
        ),
        refused("block_inverse with e = 0", 2, sim3::block_inverse(&Block([0.0; 31]))),
        refused("scaled_pair with z = -1", 1, sim3::scaled_pair(0.0, -1.0, &Values([0.0; 10]))),
        refused("root of infinity", 8, sim3::root(f64::INFINITY)),
    ];
    good.iter().all(|&x| x)
}

/// Everything in turn; whether every answer is the one known by hand.
fn example() -> Result<bool, Refusal> {
    let (join, joined) = join_runs()?;
    let good = [
        joined,
        move_line(&join)?,
        adjust(&join),
        root_and_remainder()?,
        chain()?,
        in_singles()?,
        refusals(&join),
    ];
    Ok(good.iter().all(|&x| x))
}

fn main() -> ExitCode {
    let good = example().unwrap_or_else(|refusal| {
        println!("WRONG: {refusal}");
        false
    });
    println!(
        "example: {}",
        if good { "every answer is the one known by hand" } else { "WRONG, see above" }
    );
    if good {
        ExitCode::SUCCESS
    } else {
        ExitCode::FAILURE
    }
}
