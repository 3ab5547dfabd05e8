//! Every function of bindings/rust for tests/bindings: reads records of 102 doubles from standard
//! input, the arguments in the order of `Arguments`, calls each function once, and writes their
//! numbers in the order of include/sim3.h, a pose's frames as doubles behind its own. All frames are 0.
//! With `--cfg single` the same in singles.

#[cfg(single)]
use sim3::f32::*;
#[cfg(not(single))]
use sim3::*;
#[cfg(single)]
use sim3::{Arm, Refusal};
use std::io::{self, Write};

mod input;
use input::Number;

/// Takes the next N numbers.
fn next<const N: usize>(from: &mut &[Number]) -> [Number; N] {
    let (found, rest) = from.split_at(N);
    *from = rest;
    found.try_into().unwrap()
}

struct Arguments {
    tau: Tangent,
    values: Values,
    x: Pose,
    y: Pose,
    jl: Matrix,
    jl_inv: Matrix,
    j: Block,
    p: Vector,
    pts: [Number; 12],
    numbers: [Number; 5],
}

fn read(mut from: &[Number]) -> Arguments {
    let from = &mut from;
    Arguments {
        tau: Tangent(next(from)),
        values: Values(next(from)),
        x: Pose { numbers: next(from), from: 0, to: 0 },
        y: Pose { numbers: next(from), from: 0, to: 0 },
        jl: next(from),
        jl_inv: next(from),
        j: Block(next(from)),
        p: next(from),
        pts: next(from),
        numbers: next(from),
    }
}

fn poses(a: &Arguments, out: &mut Vec<Number>) -> Result<(), Refusal> {
    let [up, down, ds, ..] = a.numbers;
    let given = [
        exp(&a.tau, &a.values, 0, 0),
        mul(&a.x, &a.y, up)?,
        inverse(&a.x, down),
        mul_inv(&a.x, &a.y, ds)?,
        inv_mul(&a.x, &a.y, down)?,
    ];
    for pose in given {
        out.extend(pose.numbers);
        out.extend([Number::from(pose.from), Number::from(pose.to)]);
    }
    let mut near = a.x;
    renormalize(&mut near);
    out.extend(near.numbers);
    let mut moved = [0.0; 12];
    act_many(&a.x, up, &a.pts, &mut moved)?;
    out.extend(moved);
    act_each(&a.x, up, &a.pts, &mut moved)?;
    out.extend(moved);
    Ok(())
}

/// An arm as the C function writes it.
fn arm_numbers(at: Arm) -> [Number; 2] {
    [at.number.into(), u8::from(at.ends).into()]
}

fn blocks(a: &Arguments, out: &mut Vec<Number>) -> Result<(), Refusal> {
    let [up, down, _, sigma, z] = a.numbers;
    let (pos, neg) = scaled_pair(sigma, z, &a.values)?;
    out.extend([pos, neg].as_flattened());
    let (at, c) = coeffs_armed(sigma, z, &a.values)?;
    out.extend(arm_numbers(at));
    out.extend(c);
    let [(at, pos), (at_neg, neg)] = armed_pair(sigma, z, &a.values)?;
    out.extend([arm_numbers(at), arm_numbers(at_neg)].as_flattened());
    out.extend([pos, neg].as_flattened());
    let pair = block_pair(&a.tau, &a.values, &a.jl, &a.jl_inv);
    for block in [pair.left, pair.left_inv, pair.right, pair.right_inv, block_inverse(&a.j)?, adjoint(&a.x, up)] {
        out.extend(block.0);
    }
    for by in [act_jacobians_right(&a.x, up, &a.p), act_jacobians_left(&a.x, up, &a.p)] {
        out.extend([by.phi, by.rho].as_flattened());
        out.extend(by.sigma);
        out.extend(by.point);
    }
    for (first, second) in [compose_jacobians_right(&a.y, down), compose_jacobians_left(&a.x, up)] {
        out.extend([first.0, second.0].as_flattened());
    }
    out.extend(inverse_jacobian_right(&a.x, up).0);
    out.extend(inverse_jacobian_left(&a.x, down).0);
    Ok(())
}

fn main() -> io::Result<()> {
    let numbers = input::numbers()?;
    let mut out = Vec::new();
    for record in numbers.chunks_exact(102) {
        let a = read(record);
        poses(&a, &mut out).and_then(|()| blocks(&a, &mut out)).map_err(io::Error::other)?;
    }
    let written: Vec<u8> = out.iter().flat_map(|x| x.to_le_bytes()).collect();
    io::stdout().write_all(&written)
}
