//! The marks of the job program: what a record's numbers are and which published function answers
//! them; the frames by their own rules. A refusal is its number. At the narrow width the letters
//! are small and the numbers have 4 bytes; AR and the marks behind it are of the wide one alone.

use super::counts::all_finite;
use super::frames::Frames;
use super::layout::{Reader, Writer, WIDTH};
use super::sheets::Take;
use super::state::State;
use super::{arms, reads, Values};
use crate::sim3::access::{jl_and_inverse_from, squared_angle};
use crate::{coefficients, Jac, LieGroup, Sim3, Sim3Tangent, Tangent};
use helicoid_linalg::float::{by_width, Float};
use helicoid_linalg::handed::{finish, H};
use helicoid_linalg::{Mat3, Point};

/// A mark: its letters, the bytes behind them in a record, and its answer: the bytes that it has
/// before its numbers, the bytes of these, the bytes behind them, and what gives it.
pub struct Mark {
    pub letters: [u8; 2],
    pub bytes_in: usize,
    pub bytes_before: usize,
    pub bytes_out: usize,
    pub bytes_behind: usize,
    pub answer: Answer,
}

/// What gives an answer: from the record alone, or also from what the job's records before it left.
pub enum Answer {
    Alone(fn(Reader<'_>, Writer<'_>) -> Result<(), u8>),
    Running(fn(&mut State, Reader<'_>, Writer<'_>) -> Result<(), u8>),
}

/// The bytes of a pose's frames.
const FRAMES: usize = 4;

/// What a letter of a mark has at the narrow width beyond its code at the wide one.
const SMALL: u8 = by_width(0, b'a' - b'A');

/// A mark whose record and answer are numbers alone, so many of each.
const fn plain(
    [first, second]: &[u8; 2],
    numbers_in: usize,
    numbers_out: usize,
    answer: fn(Reader<'_>, Writer<'_>) -> Result<(), u8>,
) -> Mark {
    let letters = [*first + SMALL, *second + SMALL];
    let (bytes_in, bytes_out) = (numbers_in * WIDTH, numbers_out * WIDTH);
    let answer = Answer::Alone(answer);
    Mark { letters, bytes_in, bytes_before: 0, bytes_out, bytes_behind: 0, answer }
}

/// A mark that reads or changes the job's state, its answer made of bytes before its numbers, of
/// these, and of bytes behind them.
const fn running(
    letters: &[u8; 2],
    bytes_in: usize,
    [bytes_before, bytes_out, bytes_behind]: [usize; 3],
    answer: fn(&mut State, Reader<'_>, Writer<'_>) -> Result<(), u8>,
) -> Mark {
    let answer = Answer::Running(answer);
    Mark { letters: *letters, bytes_in, bytes_before, bytes_out, bytes_behind, answer }
}

/// The same with the frames of so many poses in the record and of one behind the answer.
const fn posed(mark: Mark, poses: usize) -> Mark {
    Mark { bytes_in: mark.bytes_in + poses * FRAMES, bytes_behind: FRAMES, ..mark }
}

/// The paper's job table with the frames of its poses, and the requested marks behind it.
const ALL: [Mark; 12] = [
    posed(plain(b"EX", 17, 8, ex), 1),
    plain(b"CO", 12, 20, co),
    plain(b"PA", 35, 124, pa),
    Mark { bytes_behind: 0, ..posed(plain(b"AC", 12, 3, ac), 1) },
    posed(plain(b"MU", 17, 8, mu), 2),
    posed(plain(b"IN", 9, 8, inverse), 1),
    plain(b"JI", 31, 31, ji),
    Mark { bytes_before: 4, ..plain(b"AR", 12, 20, ar) },
    running(b"CH", 9 * WIDTH + FRAMES, [0, 8 * WIDTH, FRAMES], ch),
    running(b"RN", 2, [2, 0, 0], rn),
    running(b"SH", 2 + 2 + 8 * WIDTH + FRAMES, [3, 0, 0], sh),
    running(b"SQ", 2, [2, 8 * WIDTH, FRAMES], sq),
];

/// The marks of this width, in the order of the job table.
pub const MARKS: &[Mark] = ALL.split_at(by_width(12, 7)).0;

impl Mark {
    /// The bytes of a whole answer, its letters included.
    #[inline]
    pub fn size(&self) -> usize {
        2 + self.bytes_before + self.bytes_out + self.bytes_behind
    }

    /// The numbers of a whole answer: its letters and the bytes before and behind are left out.
    #[inline]
    pub fn numbers<'a>(&self, answer: &'a [u8]) -> &'a [u8] {
        &answer[2 + self.bytes_before..][..self.bytes_out]
    }
}

/// The mark with these two letters.
#[inline]
pub fn mark(letters: [u8; 2]) -> Option<&'static Mark> {
    MARKS.iter().find(|m| m.letters == letters)
}

/// Takes a record, whose bytes behind its mark begin `rest`: writes its answer, the letters
/// included, and says how many of those bytes it has and whether the answer's numbers are all
/// finite; or writes nothing and says, in place of the latter, by what it is refused. `state` is the
/// job's. `Err` is 6 where the letters are no mark, and 7 where the record is not all there.
#[inline(always)]
pub fn take(
    letters: [u8; 2],
    rest: &[u8],
    state: &mut State,
    out: &mut Vec<u8>,
) -> Result<(usize, Result<bool, u8>), u8> {
    let mark = mark(letters).ok_or(6)?;
    let record = rest.get(..mark.bytes_in).ok_or(7)?;
    let before = out.len();
    out.extend_from_slice(&letters);
    let answered = match mark.answer {
        Answer::Alone(answer) => answer(Reader(record), Writer(out)),
        Answer::Running(answer) => answer(state, Reader(record), Writer(out)),
    };
    let told = match answered {
        Ok(()) => {
            debug_assert!(out.len() == before + mark.size());
            Ok(all_finite(mark.numbers(&out[before..])))
        }
        Err(number) => {
            out.truncate(before);
            Err(number)
        }
    };
    Ok((mark.bytes_in, told))
}

/// `Exp τ`, with the frames that it is given.
fn ex(mut r: Reader<'_>, mut w: Writer<'_>) -> Result<(), u8> {
    let (tau, v, frames) = (r.tangent(), r.values(), r.frames());
    reads::exponential(tau.sigma.0, squared_angle(tau.phi).0, &v);
    let x = Sim3::exp(&tau);
    finish();
    w.pose(&x);
    w.frames(frames);
    Ok(())
}

/// The scaled coefficients at `σ` and at `−σ`, each by a call of its own.
fn co(mut r: Reader<'_>, mut w: Writer<'_>) -> Result<(), u8> {
    let (sigma, z, v) = sigma_angle(&mut r)?;
    co_one(sigma, z, &v, &mut w);
    co_one(-sigma, z, &v.mirrored(sigma), &mut w);
    Ok(())
}

/// What CO and AR take; a squared angle below zero is refused.
#[inline]
fn sigma_angle(r: &mut Reader<'_>) -> Result<(Float, Float, Values), u8> {
    let (sigma, z, v) = (r.number(), r.number(), r.values());
    if z < 0.0 {
        Err(1)
    } else {
        Ok((sigma, z, v))
    }
}

#[inline]
fn co_one(sigma: Float, z: Float, v: &Values, w: &mut Writer<'_>) {
    reads::scaled_coefficients(sigma, z, v);
    let (row, scaled) = coefficients::sim3_coeffs_scaled(H(sigma), H(z));
    finish();
    w.scalars(&row);
    w.flag(scaled);
}

/// The arm of either sign, each by its own numbers, then what CO answers.
fn ar(mut r: Reader<'_>, mut w: Writer<'_>) -> Result<(), u8> {
    let (sigma, z, v) = sigma_angle(&mut r)?;
    w.raw(&arms::told(sigma, z));
    w.raw(&arms::told(-sigma, z));
    co_one(sigma, z, &v, &mut w);
    co_one(-sigma, z, &v.mirrored(sigma), &mut w);
    Ok(())
}

/// The block and its inverse of the tangent and of its negative, each by calls of its own.
fn pa(mut r: Reader<'_>, mut w: Writer<'_>) -> Result<(), u8> {
    let (tau, v): (Sim3Tangent<H>, Values) = (r.tangent(), r.values());
    let (jl, inv): (Mat3<H>, Mat3<H>) = (r.matrix(), r.matrix());
    pa_one(&tau, &v, (jl, inv), &mut w);
    let mirrored = v.mirrored(tau.sigma.0);
    pa_one(&tau.neg(), &mirrored, (jl.transpose(), inv.transpose()), &mut w);
    Ok(())
}

#[inline]
fn pa_one(tau: &Sim3Tangent<H>, v: &Values, jacobians: (Mat3<H>, Mat3<H>), w: &mut Writer<'_>) {
    let z = squared_angle(tau.phi);
    reads::block_and_inverse(tau.sigma.0, z.0, v);
    let scaled = coefficients::sim3_coeffs_scaled(tau.sigma, z);
    let (block, inverse) = jl_and_inverse_from(tau, z, scaled, jacobians);
    finish();
    w.block(&block);
    w.block(&inverse);
}

/// `X p`; the frames say nothing here.
fn ac(mut r: Reader<'_>, mut w: Writer<'_>) -> Result<(), u8> {
    let (x, _) = (r.pose(), r.frames());
    let (up, p): (Float, [H; 3]) = (r.number(), r.scalars());
    reads::exponential_at(x.log_scale().0, up);
    let y = x * Point(p);
    finish();
    w.scalars(&y.0);
    Ok(())
}

/// `X Y`; frames that do not meet are refused.
fn mu(mut r: Reader<'_>, mut w: Writer<'_>) -> Result<(), u8> {
    let (x, left) = (r.pose(), r.frames());
    let (y, right) = (r.pose(), r.frames());
    let up = r.number();
    let frames = Frames::product(left, right)?;
    reads::exponential_at(x.log_scale().0, up);
    let xy = x * y;
    finish();
    w.pose(&xy);
    w.frames(frames);
    Ok(())
}

/// `X⁻¹`, its frames exchanged.
fn inverse(mut r: Reader<'_>, mut w: Writer<'_>) -> Result<(), u8> {
    let (x, frames, down) = (r.pose(), r.frames(), r.number());
    reads::exponential_at(-x.log_scale().0, down);
    let y = x.inverse();
    finish();
    w.pose(&y);
    w.frames(frames.inverse());
    Ok(())
}

/// The inverse of a block; `e` a zero of either sign is refused.
fn ji(mut r: Reader<'_>, mut w: Writer<'_>) -> Result<(), u8> {
    let j = r.block();
    if crate::sim3::access::block_parts(&j).4 .0 == 0.0 {
        return Err(2);
    }
    let inv = j.inverse();
    finish();
    w.block(&inv);
    Ok(())
}

/// The running pose, with this one joined to it.
fn ch(state: &mut State, mut r: Reader<'_>, mut w: Writer<'_>) -> Result<(), u8> {
    let (x, frames, up) = (r.pose(), r.frames(), r.number());
    let (running, at) = state.chain.join(x, frames, up)?;
    w.pose(&running);
    w.frames(at);
    Ok(())
}

/// After how many products the running quaternion is renormalised, said back.
fn rn(state: &mut State, r: Reader<'_>, mut w: Writer<'_>) -> Result<(), u8> {
    let n = [r.0[0], r.0[1]];
    state.chain.set_every(u16::from_le_bytes(n));
    w.raw(&n);
    Ok(())
}

/// What a take is to its sheet, and the take that stood before it.
fn sh(state: &mut State, mut r: Reader<'_>, mut w: Writer<'_>) -> Result<(), u8> {
    let (sheet, number) = (r.short(), r.short());
    let (pose, frames) = (r.pose(), r.frames());
    let (outcome, before) = state.sheets.bring(sheet, Take { number, pose, frames })?;
    w.raw(&[outcome]);
    w.short(before);
    Ok(())
}

/// The take that is kept of a sheet.
fn sq(state: &mut State, mut r: Reader<'_>, mut w: Writer<'_>) -> Result<(), u8> {
    let take = state.sheets.kept(r.short())?;
    w.short(take.number);
    w.pose(&take.pose);
    w.frames(take.frames);
    Ok(())
}
