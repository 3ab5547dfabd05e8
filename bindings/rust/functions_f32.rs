// Written by tools/widths from bindings/rust/functions.rs: edit that one. Digest 47b85bd5837bd33a.
//! The functions over `f32`, each by one C function.

#![forbid(unsafe_code)]

use crate::lists::list;
use crate::near::Near;
use crate::raw::single as raw;
use crate::{unexpected, Arm, Join, Refusal};

/// A pose, which maps points of the frame `from` to points of the frame `to`.
#[derive(Clone, Copy, Debug, PartialEq)]
pub struct Pose {
    /// Quaternion w x y z, translation x y z, sigma.
    pub numbers: [f32; 8],
    pub from: u16,
    pub to: u16,
}

list! {
    /// A tangent: phi x y z, rho x y z, sigma.
    Tangent: [f32; 7] { sigma 6 }
}
list! {
    /// The host's ten function values of a tangent.
    Values: [f32; 10] {
        root 0, sin_half 1, cos_half 2, sin 3, e 4, m 5, e0 6, m0 7, up 8, down 9
    }
}
list! {
    /// A block Jacobian: a 9, b 9, c 9, f 3, e: the 7 by 7 matrix with the rows (a 0 0), (b c f),
    /// (0 0 e).
    Block: [f32; 31] { e 30 }
}
/// x y z.
pub type Vector = [f32; 3];
/// Column by column.
pub type Matrix = [f32; 9];
/// v0 v1 v2 w0 w1 w2 dv1 dv2 chi_delta, and the flag: 1 where they are still to be multiplied by
/// e^sigma, else 0.
pub type Coefficients = [f32; 10];

/// The four blocks of [`block_pair`].
#[derive(Clone, Copy, Debug, PartialEq)]
pub struct BlockPair {
    pub left: Block,
    pub left_inv: Block,
    pub right: Block,
    pub right_inv: Block,
}

/// X p by phi, rho and sigma of X, and by p.
#[derive(Clone, Copy, Debug, PartialEq)]
pub struct ActJacobians {
    pub phi: Matrix,
    pub rho: Matrix,
    pub sigma: Vector,
    pub point: Matrix,
}

impl Tangent {
    /// The rotation vector.
    pub fn phi(&self) -> Vector {
        part(self, 0)
    }

    /// The translation part.
    pub fn rho(&self) -> Vector {
        part(self, 3)
    }
}

impl Block {
    /// The block that takes phi to phi.
    pub fn a(&self) -> Matrix {
        part(self, 0)
    }

    /// The block that takes phi to rho.
    pub fn b(&self) -> Matrix {
        part(self, 9)
    }

    /// The block that takes rho to rho.
    pub fn c(&self) -> Matrix {
        part(self, 18)
    }

    /// The column that takes sigma to rho.
    pub fn f(&self) -> Vector {
        part(self, 27)
    }
}

// ---- the results of C functions

/// The N numbers of `all` from `at` on.
fn part<const N: usize>(all: &[f32], at: usize) -> [f32; N] {
    let mut found = [0.0; N];
    found.copy_from_slice(&all[at..at + N]);
    found
}

/// The block of `all` from `at` on.
fn block(all: &[f32], at: usize) -> Block {
    Block(part(all, at))
}

/// The numbers of a call that cannot be refused, since the lengths are in the types.
fn infallible<const N: usize>(call: impl FnOnce(&mut [f32]) -> u32) -> [f32; N] {
    let mut out = [0.0; N];
    match call(&mut out) {
        0 => out,
        refused => unexpected(refused),
    }
}

/// The numbers of a call, or its one refusal.
fn or_refusal<const N: usize>(
    refusal: Refusal,
    call: impl FnOnce(&mut [f32]) -> u32,
) -> Result<[f32; N], Refusal> {
    let mut out = [0.0; N];
    match call(&mut out) {
        0 => Ok(out),
        refused if refused == refusal.number() => Err(refusal),
        refused => unexpected(refused),
    }
}

/// The result of a call over a list.
fn list_result(refused: u32, pts: usize, out: usize) -> Result<(), Refusal> {
    let refusal = Refusal::PointsLength { pts, out };
    or_refusal::<0>(refusal, |_| refused).map(|_| ())
}

// ---- poses

/// What a call returns, and the pose that it wrote if that is 0.
fn call_for_pose(call: impl FnOnce(&mut [f32], &mut [u16]) -> u32) -> (u32, Pose) {
    let (mut numbers, mut frames) = ([0.0; 8], [0; 2]);
    let status = call(&mut numbers, &mut frames);
    (status, Pose { numbers, from: frames[0], to: frames[1] })
}

/// The pose of a call that cannot be refused.
fn infallible_pose((status, pose): (u32, Pose)) -> Pose {
    match status {
        0 => pose,
        refused => unexpected(refused),
    }
}

/// The product of two poses; `x` and `y` are the frames that must be equal.
fn join_result((status, pose): (u32, Pose), join: Join, x: u16, y: u16) -> Result<Pose, Refusal> {
    match status {
        0 => Ok(pose),
        9 => Err(Refusal::Frames { join, x, y }),
        refused => unexpected(refused),
    }
}

impl Pose {
    /// From and to, as the C functions take them.
    fn frames(&self) -> [u16; 2] {
        [self.from, self.to]
    }
}

/// Exp(tau), with the frames that it is given.
pub fn exp(tau: &Tangent, values: &Values, from: u16, to: u16) -> Pose {
    infallible_pose(call_for_pose(|out, frames| raw::exp(tau, values, &[from, to], out, frames)))
}

/// X Y, from where Y starts to where X goes; refused where X does not start from the frame to which Y
/// goes. `up` is e^sigma of X.
pub fn mul(x: &Pose, y: &Pose, up: f32) -> Result<Pose, Refusal> {
    let result = call_for_pose(|out, frames| {
        raw::mul(&x.numbers, &x.frames(), &y.numbers, &y.frames(), up, out, frames)
    });
    join_result(result, Join::Mul, x.from, y.to)
}

/// X⁻¹, back from X's to to its from; `down` is e^-sigma of X.
pub fn inverse(x: &Pose, down: f32) -> Pose {
    infallible_pose(call_for_pose(|out, frames| {
        raw::inverse(&x.numbers, &x.frames(), down, out, frames)
    }))
}

/// X Y⁻¹, from where Y goes to where X goes; refused where they start from two frames. `ds` is
/// e^(sigma of X - sigma of Y).
pub fn mul_inv(x: &Pose, y: &Pose, ds: f32) -> Result<Pose, Refusal> {
    let result = call_for_pose(|out, frames| {
        raw::mul_inv(&x.numbers, &x.frames(), &y.numbers, &y.frames(), ds, out, frames)
    });
    join_result(result, Join::MulInv, x.from, y.from)
}

/// Y⁻¹ X, from where X starts to where Y starts; refused where they go to two frames. `down` is
/// e^-sigma of Y.
pub fn inv_mul(x: &Pose, y: &Pose, down: f32) -> Result<Pose, Refusal> {
    let result = call_for_pose(|out, frames| {
        raw::inv_mul(&x.numbers, &x.frames(), &y.numbers, &y.frames(), down, out, frames)
    });
    join_result(result, Join::InvMul, x.to, y.to)
}

/// One Newton step that brings the quaternion nearer to length 1, in place; the frames stay.
pub fn renormalize(x: &mut Pose) {
    infallible::<0>(|_| raw::renormalize(&mut x.numbers));
}

// ---- lists of points, flat: x y z of every point, at most 65,535 numbers, `out` as long as `pts`.
// A list of [f32; 3] is flat by as_flattened.

/// Every point moved by the matrix s R, formed once: the bits of helicoid's act_many. `up` is e^sigma
/// of X. A refusal leaves `out` as it was.
pub fn act_many(x: &Pose, up: f32, pts: &[f32], out: &mut [f32]) -> Result<(), Refusal> {
    list_result(raw::act_many(&x.numbers, up, pts, out), pts.len(), out.len())
}

/// Every point moved by itself: the bits of the job's mark AC, `ac` at f32. `up` is e^sigma of X. A
/// refusal leaves `out` as it was.
pub fn act_each(x: &Pose, up: f32, pts: &[f32], out: &mut [f32]) -> Result<(), Refusal> {
    list_result(raw::act_each(&x.numbers, up, pts, out), pts.len(), out.len())
}

// ---- both signs, both sides, from one evaluation

/// The coefficients at sigma and at -sigma; refused where z is below zero.
pub fn scaled_pair(
    sigma: f32,
    z: f32,
    values: &Values,
) -> Result<(Coefficients, Coefficients), Refusal> {
    let out: [f32; 20] =
        or_refusal(Refusal::BelowZero, |out| raw::scaled_pair(sigma, z, values, out))?;
    Ok((part(&out, 0), part(&out, 10)))
}

fn arm([number, ends]: [f32; 2]) -> Arm {
    Arm { number: number as u8, ends: ends != 0.0 }
}

/// The arm and the coefficients at sigma; refused where z is below zero.
pub fn coeffs_armed(sigma: f32, z: f32, values: &Values) -> Result<(Arm, Coefficients), Refusal> {
    let out: [f32; 12] =
        or_refusal(Refusal::BelowZero, |out| raw::coeffs_armed(sigma, z, values, out))?;
    Ok((arm(part(&out, 0)), part(&out, 2)))
}

/// The same at sigma and at -sigma; refused where z is below zero.
pub fn armed_pair(
    sigma: f32,
    z: f32,
    values: &Values,
) -> Result<[(Arm, Coefficients); 2], Refusal> {
    let out: [f32; 24] =
        or_refusal(Refusal::BelowZero, |out| raw::armed_pair(sigma, z, values, out))?;
    Ok([(arm(part(&out, 0)), part(&out, 4)), (arm(part(&out, 2)), part(&out, 14))])
}

/// The least number of neighbouring singles that z must move, staying finite and not below zero, for the
/// arm to change; None where every such z has the same arm. Where both directions need the same count,
/// up is given. Refused where z is below zero, then where sigma or z is a NaN or infinite.
pub fn nearest_arm(sigma: f32, z: f32) -> Result<Option<Near>, Refusal> {
    let mut near = [0; 3];
    match raw::nearest_arm(sigma, z, &mut near) {
        0 => Ok(Near::from_numbers(near)),
        1 => Err(Refusal::BelowZero),
        8 => Err(Refusal::NotFinite),
        refused => unexpected(refused),
    }
}

/// J_l(tau), its inverse, J_r(tau), its inverse; `jl` is J_l(phi) of the rotation, `jl_inv` its
/// inverse.
pub fn block_pair(tau: &Tangent, values: &Values, jl: &Matrix, jl_inv: &Matrix) -> BlockPair {
    let out: [f32; 124] = infallible(|out| raw::block_pair(tau, values, jl, jl_inv, out));
    BlockPair {
        left: block(&out, 0),
        left_inv: block(&out, 31),
        right: block(&out, 62),
        right_inv: block(&out, 93),
    }
}

// ---- blocks

/// The inverse of a block, by adjugates; refused where e is a zero.
pub fn block_inverse(j: &Block) -> Result<Block, Refusal> {
    or_refusal(Refusal::EIsZero, |out| raw::block_inverse(j, out)).map(Block)
}

/// Ad_X; `up` is e^sigma of X.
pub fn adjoint(x: &Pose, up: f32) -> Block {
    Block(infallible(|out| raw::adjoint(&x.numbers, up, out)))
}

fn act_jacobians(out: [f32; 30]) -> ActJacobians {
    ActJacobians {
        phi: part(&out, 0),
        rho: part(&out, 9),
        sigma: part(&out, 18),
        point: part(&out, 21),
    }
}

/// Of X p for X Exp(tau); `up` is e^sigma of X.
pub fn act_jacobians_right(x: &Pose, up: f32, p: &Vector) -> ActJacobians {
    act_jacobians(infallible(|out| raw::act_jacobians_right(&x.numbers, up, p, out)))
}

/// Of X p for Exp(tau) X; `up` is e^sigma of X.
pub fn act_jacobians_left(x: &Pose, up: f32, p: &Vector) -> ActJacobians {
    act_jacobians(infallible(|out| raw::act_jacobians_left(&x.numbers, up, p, out)))
}

/// Of X Y, right: by X and by Y, which read Y alone; `down` is e^-sigma of Y.
pub fn compose_jacobians_right(y: &Pose, down: f32) -> (Block, Block) {
    let out: [f32; 62] = infallible(|out| raw::compose_jacobians_right(&y.numbers, down, out));
    (block(&out, 0), block(&out, 31))
}

/// Of X Y, left: by X and by Y, which read X alone; `up` is e^sigma of X.
pub fn compose_jacobians_left(x: &Pose, up: f32) -> (Block, Block) {
    let out: [f32; 62] = infallible(|out| raw::compose_jacobians_left(&x.numbers, up, out));
    (block(&out, 0), block(&out, 31))
}

/// Of X⁻¹, right; `up` is e^sigma of X.
pub fn inverse_jacobian_right(x: &Pose, up: f32) -> Block {
    Block(infallible(|out| raw::inverse_jacobian_right(&x.numbers, up, out)))
}

/// Of X⁻¹, left; `down` is e^-sigma of X.
pub fn inverse_jacobian_left(x: &Pose, down: f32) -> Block {
    Block(infallible(|out| raw::inverse_jacobian_left(&x.numbers, down, out)))
}
