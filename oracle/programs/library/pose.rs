//! Tangents and poses: `sim3.rs` and, for `rplus` and `lplus`, the shim's `traits.rs`.

use super::Part::*;
use super::{Entry, Parts, Reader, Writer};
use helicoid::judge::{reads, Values};
use helicoid::sim3::access::{exp_and_jl, squared_angle};
use helicoid::{Left, LieGroup, Right, Side, Sim3, Sim3Tangent, Tangent as _};
use helicoid_linalg::float::Float;
use helicoid_linalg::handed::H;
use helicoid_linalg::{Mat3, Matrix as Mat, Point};

/// The longest point list, in numbers.
const LONGEST_LIST: u64 = 65_535;

const TWO_TANGENTS: Parts = &[("τ", Tangent), ("τ'", Tangent)];
const POSE_UP: Parts = &[("x", Pose), ("up", Exponential)];
const POSE_DOWN: Parts = &[("x", Pose), ("down", Exponential)];
const POSE_UP_POINT: Parts = &[("x", Pose), ("up", Exponential), ("p", Vector)];
const POSE_UP_LIST: Parts = &[("x", Pose), ("up", Exponential), ("points", List)];
const TANGENT_JL: Parts = &[("τ", Tangent), ("values", Values), ("J_l(φ)", Jacobian)];
const TANGENT_BOTH: Parts =
    &[("τ", Tangent), ("values", Values), ("J_l(φ)", Jacobian), ("J_l(φ)⁻¹", JacobianInverse)];
const NEGATIVE_JL: Parts =
    &[("τ", Tangent), ("values of −τ", ValuesOfNegative), ("J_l(−φ)", JacobianOfNegative)];
const NEGATIVE_BOTH: Parts = &[
    ("τ", Tangent),
    ("values of −τ", ValuesOfNegative),
    ("J_l(−φ)", JacobianOfNegative),
    ("J_l(−φ)⁻¹", JacobianInverseOfNegative),
];
const BY_X_TAU: Parts = &[("by x", Block), ("by τ", Block)];
const BY_X_Y: Parts = &[("by x", Block), ("by y", Block)];
const ACTION: Parts = &[("by x", Wide), ("sR", Matrix)];

fn mul_inv(r: &mut Reader<'_>, w: &mut Writer<'_>) -> Result<(), u8> {
    let (x, o, between) = (r.pose(), r.pose(), r.number());
    reads::exponential_at(x.log_scale().0 - o.log_scale().0, between);
    Ok(w.pose(&x.mul_inv(&o)))
}

fn inv_mul(r: &mut Reader<'_>, w: &mut Writer<'_>) -> Result<(), u8> {
    let (x, o, down) = (r.pose(), r.pose(), r.number());
    reads::exponential_at(-o.log_scale().0, down);
    Ok(w.pose(&x.inv_mul(&o)))
}

/// A pose whose scale is taken once, with the exponential handed in.
fn pose_up(r: &mut Reader<'_>) -> (Sim3<H>, Float) {
    let (x, up) = (r.pose(), r.number());
    reads::exponential_at(x.log_scale().0, up);
    (x, up)
}

/// A point list, refused by its length.
fn points(r: &mut Reader<'_>) -> Result<Vec<helicoid_linalg::Point3<H>>, u8> {
    let n = r.word();
    if n % 3 != 0 || n > LONGEST_LIST {
        return Err(5);
    }
    Ok((0..n / 3).map(|_| Point(r.scalars())).collect())
}

fn write_points(w: &mut Writer<'_>, points: &[helicoid_linalg::Point3<H>]) {
    points.iter().for_each(|p| w.scalars(&p.0));
}

fn act_many(r: &mut Reader<'_>, w: &mut Writer<'_>) -> Result<(), u8> {
    let (x, up) = (r.pose(), r.number());
    let mut list = points(r)?;
    reads::exponential_at(x.log_scale().0, up);
    x.act_many(&mut list);
    Ok(write_points(w, &list))
}

/// `act` on each point apart, so the exponential is read once for each.
fn act_each(r: &mut Reader<'_>, w: &mut Writer<'_>) -> Result<(), u8> {
    let (x, up) = (r.pose(), r.number());
    let mut list = points(r)?;
    for p in &mut list {
        reads::exponential_at(x.log_scale().0, up);
        *p = x * *p;
        helicoid_linalg::handed::finish();
    }
    Ok(write_points(w, &list))
}

/// The right side takes the pose's scale once, the left once more in `act`.
fn act_jacobians<Sd: Side>(r: &mut Reader<'_>, w: &mut Writer<'_>) -> Result<(), u8> {
    let (x, up) = pose_up(r);
    if !Sd::IS_RIGHT {
        reads::exponential_at(x.log_scale().0, up);
    }
    let (by_x, by_p): (Mat<H, 3, 7>, Mat3<H>) = x.act_jacobians::<Sd>(Point(r.scalars()));
    w.matrix(&by_x);
    Ok(w.matrix(&by_p))
}

/// The inverse, then the inverse's own scale: both are the pose's `e^−σ`.
fn expect_inverse_adjoint(x: &Sim3<H>, down: Float) {
    reads::exponential_at(-x.log_scale().0, down);
    reads::exponential_at(-x.log_scale().0, down);
}

fn compose_right(r: &mut Reader<'_>, w: &mut Writer<'_>) -> Result<(), u8> {
    let (x, y, down) = (r.pose(), r.pose(), r.number());
    expect_inverse_adjoint(&y, down);
    let (by_x, by_y) = x.compose_jacobians::<Right>(&y);
    w.block(&by_x);
    Ok(w.block(&by_y))
}

fn compose_left(r: &mut Reader<'_>, w: &mut Writer<'_>) -> Result<(), u8> {
    let (x, y, up) = (r.pose(), r.pose(), r.number());
    reads::exponential_at(x.log_scale().0, up);
    let (by_x, by_y) = x.compose_jacobians::<Left>(&y);
    w.block(&by_x);
    Ok(w.block(&by_y))
}

fn inverse_jacobian_left(r: &mut Reader<'_>, w: &mut Writer<'_>) -> Result<(), u8> {
    let (x, down) = (r.pose(), r.number());
    expect_inverse_adjoint(&x, down);
    Ok(w.block(&x.inverse_jacobian::<Left>()))
}

/// The evaluations of `sim3_coeffs` and `jl_blocks` at `tau`.
fn expect_block(tau: &Sim3Tangent<H>, v: &Values, jl: &Mat3<H>) {
    reads::coefficients(tau.sigma.0, squared_angle(tau.phi).0, v);
    reads::rotation_jacobian(tau.phi, jl);
}

/// The evaluations of `jl_and_inverse` at `tau`: the arguments of `jl_and_inverse_from` first.
fn expect_inverse(tau: &Sim3Tangent<H>, v: &Values, jl: &Mat3<H>, inverse: &Mat3<H>) {
    let scaled = reads::scaled_coefficients(tau.sigma.0, squared_angle(tau.phi).0, v);
    reads::rotation_jacobian(tau.phi, jl);
    reads::rotation_jacobian_inverse(tau.phi, inverse);
    if scaled {
        reads::exponential_at(tau.sigma.0, v.up);
        reads::exponential_at(-tau.sigma.0, v.down);
    }
}

/// The evaluations of `exp_and_jl` at `tau`.
fn expect_exp_and_jl(tau: &Sim3Tangent<H>, v: &Values, jl: &Mat3<H>) {
    reads::exponential(tau.sigma.0, squared_angle(tau.phi).0, v);
    reads::rotation_jacobian(tau.phi, jl);
}

fn jl(r: &mut Reader<'_>, w: &mut Writer<'_>) -> Result<(), u8> {
    let (tau, v, j) = (r.tangent(), r.values(), r.matrix());
    expect_block(&tau, &v, &j);
    Ok(w.block(&Sim3::jl(&tau)))
}

fn jr(r: &mut Reader<'_>, w: &mut Writer<'_>) -> Result<(), u8> {
    let (tau, v, j) = (r.tangent(), r.values(), r.matrix());
    expect_block(&tau.neg(), &v, &j);
    Ok(w.block(&Sim3::jr(&tau)))
}

fn jl_inv(r: &mut Reader<'_>, w: &mut Writer<'_>) -> Result<(), u8> {
    let (tau, v, j, inverse) = (r.tangent(), r.values(), r.matrix(), r.matrix());
    expect_inverse(&tau, &v, &j, &inverse);
    Ok(w.block(&Sim3::jl_inv(&tau)))
}

fn jr_inv(r: &mut Reader<'_>, w: &mut Writer<'_>) -> Result<(), u8> {
    let (tau, v, j, inverse) = (r.tangent(), r.values(), r.matrix(), r.matrix());
    expect_inverse(&tau.neg(), &v, &j, &inverse);
    Ok(w.block(&Sim3::jr_inv(&tau)))
}

fn exponential_and_jl(r: &mut Reader<'_>, w: &mut Writer<'_>) -> Result<(), u8> {
    let (tau, v, j) = (r.tangent(), r.values(), r.matrix());
    expect_exp_and_jl(&tau, &v, &j);
    let (x, block) = exp_and_jl(&tau);
    w.pose(&x);
    Ok(w.block(&block))
}

/// The pose is read by no row of these Jacobians; the identity stands for it.
fn lplus_jacobians(r: &mut Reader<'_>, w: &mut Writer<'_>) -> Result<(), u8> {
    let (tau, v, j) = (r.tangent(), r.values(), r.matrix());
    expect_exp_and_jl(&tau, &v, &j);
    reads::exponential_at(tau.sigma.0, v.up);
    let (by_x, by_tau) = Sim3::identity().lplus_jacobians(&tau);
    w.block(&by_x);
    Ok(w.block(&by_tau))
}

fn rplus_jacobians(r: &mut Reader<'_>, w: &mut Writer<'_>) -> Result<(), u8> {
    let (tau, v, j) = (r.tangent(), r.values(), r.matrix());
    expect_exp_and_jl(&tau.neg(), &v, &j);
    reads::exponential_at(-tau.sigma.0, v.up);
    let (by_x, by_tau) = Sim3::identity().rplus_jacobians(&tau);
    w.block(&by_x);
    Ok(w.block(&by_tau))
}

fn rplus(r: &mut Reader<'_>, w: &mut Writer<'_>) -> Result<(), u8> {
    let (x, up, tau, v) = (r.pose(), r.number(), r.tangent(), r.values());
    reads::exponential(tau.sigma.0, squared_angle(tau.phi).0, &v);
    reads::exponential_at(x.log_scale().0, up);
    Ok(w.pose(&x.rplus(&tau)))
}

/// The left factor is `Exp τ`, whose scale is the tangent's `up`.
fn lplus(r: &mut Reader<'_>, w: &mut Writer<'_>) -> Result<(), u8> {
    let (x, tau, v) = (r.pose(), r.tangent(), r.values());
    reads::exponential(tau.sigma.0, squared_angle(tau.phi).0, &v);
    reads::exponential_at(tau.sigma.0, v.up);
    Ok(w.pose(&x.lplus(&tau)))
}

fn renormalize(r: &mut Reader<'_>, w: &mut Writer<'_>) -> Result<(), u8> {
    let mut x = r.pose();
    x.renormalize();
    Ok(w.pose(&x))
}

fn write_dense(r: &mut Reader<'_>, w: &mut Writer<'_>) -> Result<(), u8> {
    let mut dense = [H(0.0); 7];
    r.tangent().write_dense(&mut dense);
    Ok(w.scalars(&dense))
}

pub const ENTRIES: &[Entry] = &[
    Entry::new(70, "Sim3Tangent zero", &[], &[("τ", Tangent)], |_, w| {
        Ok(w.tangent(&Sim3Tangent::zero()))
    }),
    Entry::new(71, "Sim3Tangent add", TWO_TANGENTS, &[("τ+τ'", Tangent)], |r, w| {
        Ok(w.tangent(&r.tangent().add(&r.tangent())))
    }),
    Entry::new(72, "Sim3Tangent sub", TWO_TANGENTS, &[("τ−τ'", Tangent)], |r, w| {
        Ok(w.tangent(&r.tangent().sub(&r.tangent())))
    }),
    Entry::new(73, "Sim3Tangent neg", &[("τ", Tangent)], &[("−τ", Tangent)], |r, w| {
        Ok(w.tangent(&r.tangent().neg()))
    }),
    Entry::new(
        74,
        "Sim3Tangent scale",
        &[("τ", Tangent), ("k", Number)],
        &[("k τ", Tangent)],
        |r, w| Ok(w.tangent(&r.tangent().scale(r.scalar()))),
    ),
    Entry::new(
        75,
        "Sim3Tangent dot_acc",
        &[("τ", Tangent), ("τ'", Tangent), ("acc", Number)],
        &[("acc + τ·τ'", Number)],
        |r, w| Ok(w.scalar(r.tangent().dot_acc(&r.tangent(), r.scalar()))),
    ),
    Entry::new(
        76,
        "Sim3Tangent write_dense",
        &[("τ", Tangent)],
        &[("dense", Tangent)],
        write_dense,
    ),
    Entry::new(77, "Sim3Tangent read_dense", &[("dense", Tangent)], &[("τ", Tangent)], |r, w| {
        Ok(w.tangent(&Sim3Tangent::read_dense(&r.scalars::<7>())))
    }),
    Entry::new(
        80,
        "Sim3 mul_inv",
        &[("x", Pose), ("other", Pose), ("e^(σ − σ of other)", Exponential)],
        &[("x other⁻¹", Pose)],
        mul_inv,
    ),
    Entry::new(
        81,
        "Sim3 inv_mul",
        &[("x", Pose), ("other", Pose), ("down of other", Exponential)],
        &[("other⁻¹ x", Pose)],
        inv_mul,
    ),
    Entry::new(82, "Sim3 act_many", POSE_UP_LIST, &[("points", List)], act_many).refusing(&[5]),
    Entry::new(83, "Sim3 act on each", POSE_UP_LIST, &[("points", List)], act_each).refusing(&[5]),
    Entry::new(84, "Sim3 act_jacobians, right", POSE_UP_POINT, ACTION, act_jacobians::<Right>),
    Entry::new(85, "Sim3 act_jacobians, left", POSE_UP_POINT, ACTION, act_jacobians::<Left>),
    Entry::new(86, "Sim3 adjoint", POSE_UP, &[("Ad", Block)], |r, w| {
        Ok(w.block(&pose_up(r).0.adjoint()))
    }),
    Entry::new(87, "Sim3 ad", &[("τ", Tangent)], &[("ad", Block)], |r, w| {
        Ok(w.block(&Sim3::ad(&r.tangent())))
    }),
    Entry::new(88, "Sim3 jl", TANGENT_JL, &[("J_l", Block)], jl),
    Entry::new(89, "Sim3 jr", NEGATIVE_JL, &[("J_r", Block)], jr),
    Entry::new(90, "Sim3 jl_inv", TANGENT_BOTH, &[("J_l⁻¹", Block)], jl_inv),
    Entry::new(91, "Sim3 jr_inv", NEGATIVE_BOTH, &[("J_r⁻¹", Block)], jr_inv),
    Entry::new(
        92,
        "exp_and_jl",
        TANGENT_JL,
        &[("Exp τ", Pose), ("J_l", Block)],
        exponential_and_jl,
    ),
    Entry::new(93, "Sim3 lplus_jacobians", TANGENT_JL, BY_X_TAU, lplus_jacobians),
    Entry::new(94, "Sim3 rplus_jacobians", NEGATIVE_JL, BY_X_TAU, rplus_jacobians),
    Entry::new(
        95,
        "Sim3 compose_jacobians, right",
        &[("x", Pose), ("y", Pose), ("down of y", Exponential)],
        BY_X_Y,
        compose_right,
    ),
    Entry::new(
        96,
        "Sim3 compose_jacobians, left",
        &[("x", Pose), ("y", Pose), ("up of x", Exponential)],
        BY_X_Y,
        compose_left,
    ),
    Entry::new(97, "Sim3 inverse_jacobian, right", POSE_UP, &[("J", Block)], |r, w| {
        Ok(w.block(&pose_up(r).0.inverse_jacobian::<Right>()))
    }),
    Entry::new(
        98,
        "Sim3 inverse_jacobian, left",
        POSE_DOWN,
        &[("J", Block)],
        inverse_jacobian_left,
    ),
    Entry::new(
        99,
        "Sim3 rplus",
        &[("x", Pose), ("up of x", Exponential), ("τ", Tangent), ("values", Values)],
        &[("x Exp τ", Pose)],
        rplus,
    ),
    Entry::new(
        100,
        "Sim3 lplus",
        &[("x", Pose), ("τ", Tangent), ("values", Values)],
        &[("Exp τ x", Pose)],
        lplus,
    ),
    Entry::new(101, "Sim3 identity", &[], &[("x", Pose)], |_, w| Ok(w.pose(&Sim3::identity()))),
    Entry::new(102, "Sim3 renormalize", &[("x", Pose)], &[("x", Pose)], renormalize),
];
