//! Numbers in bytes: little endian, of 8 bytes, or at the narrow width of 4; matrices column by
//! column, a block as `a, b, c, f, e`, a pose as quaternion, translation, log scale. Frames are two
//! 2-byte whole numbers, from and to, little endian too, as are n, sheets and takes.

use super::frames::Frames;
use super::Values;
use crate::sim3::access::{block, block_parts};
use crate::{Quat, Sim3, Sim3Jac, Sim3Tangent, SO3};
use helicoid_linalg::float::{by_width, Bits, Float};
use helicoid_linalg::handed::H;
use helicoid_linalg::{Mat3, Matrix, Vec3, Vector};

/// The bytes of a number.
pub const WIDTH: usize = size_of::<Float>();

/// How every NaN is written.
pub const NAN: Bits = by_width(0x7ff8_0000_0000_0000u64, 0x7fc0_0000) as Bits;

/// A record's numbers, taken from the front.
pub struct Reader<'a>(pub &'a [u8]);

impl Reader<'_> {
    /// So many bytes as they are.
    #[inline(always)]
    fn take<const N: usize>(&mut self) -> [u8; N] {
        let (head, rest) = self.0.split_first_chunk::<N>().expect("a whole record");
        self.0 = rest;
        *head
    }

    /// A whole number of 64 bits.
    #[inline(always)]
    pub fn word(&mut self) -> u64 {
        u64::from_le_bytes(self.take())
    }

    /// A whole number of 16 bits.
    #[inline(always)]
    pub fn short(&mut self) -> u16 {
        u16::from_le_bytes(self.take())
    }

    #[inline(always)]
    pub fn number(&mut self) -> Float {
        Float::from_le_bytes(self.take())
    }

    #[inline(always)]
    pub fn scalar(&mut self) -> H {
        H(self.number())
    }

    #[inline(always)]
    pub fn numbers<const N: usize>(&mut self) -> [Float; N] {
        let mut a = [0.0; N];
        a.iter_mut().for_each(|x| *x = self.number());
        a
    }

    #[inline(always)]
    pub fn scalars<const N: usize>(&mut self) -> [H; N] {
        self.numbers().map(H)
    }

    #[inline(always)]
    pub fn vector<const N: usize>(&mut self) -> Vector<H, N> {
        Vector(self.scalars())
    }

    #[inline(always)]
    pub fn matrix<const R: usize, const C: usize>(&mut self) -> Matrix<H, R, C> {
        let mut cols = [Vector([H(0.0); R]); C];
        cols.iter_mut().for_each(|c| *c = self.vector());
        Matrix::from_cols(cols)
    }

    #[inline(always)]
    pub fn quat(&mut self) -> Quat<H> {
        let [w, x, y, z] = self.scalars();
        Quat { w, x, y, z }
    }

    #[inline(always)]
    pub fn pose(&mut self) -> Sim3<H> {
        let (q, t, sigma) = (self.quat(), self.vector(), self.scalar());
        Sim3::from_parts(SO3::from_quat_unchecked(q), t, sigma)
    }

    #[inline(always)]
    pub fn frames(&mut self) -> Frames {
        let [a, b, c, d] = self.take();
        Frames { from: u16::from_le_bytes([a, b]), to: u16::from_le_bytes([c, d]) }
    }

    #[inline(always)]
    pub fn tangent(&mut self) -> Sim3Tangent<H> {
        let (phi, rho, sigma) = (self.vector(), self.vector(), self.scalar());
        Sim3Tangent { phi, rho, sigma }
    }

    #[inline(always)]
    pub fn values(&mut self) -> Values {
        Values::from_array(self.numbers())
    }

    #[inline(always)]
    pub fn block(&mut self) -> Sim3Jac<H> {
        let (a, b, c) = (self.matrix(), self.matrix(), self.matrix());
        let (f, e) = (self.vector(), self.scalar());
        block(a, b, c, f, e)
    }
}

/// The bytes of a number; every NaN has the same.
#[inline(always)]
fn bytes(x: H) -> [u8; WIDTH] {
    let bits = if x.0.is_nan() { NAN } else { x.0.to_bits() };
    bits.to_le_bytes()
}

/// An answer's numbers, added at the end.
pub struct Writer<'a>(pub &'a mut Vec<u8>);

impl Writer<'_> {
    #[inline(always)]
    pub fn scalars<const N: usize>(&mut self, a: &[H; N]) {
        self.0.extend_from_slice(a.map(bytes).as_flattened());
    }

    /// Bytes as they are.
    #[inline(always)]
    pub fn raw(&mut self, a: &[u8]) {
        self.0.extend_from_slice(a);
    }

    #[inline(always)]
    pub fn short(&mut self, n: u16) {
        self.raw(&n.to_le_bytes());
    }

    #[inline(always)]
    pub fn scalar(&mut self, x: H) {
        self.scalars(&[x]);
    }

    #[inline(always)]
    pub fn flag(&mut self, x: bool) {
        self.scalar(H(if x { 1.0 } else { 0.0 }));
    }

    #[inline(always)]
    pub fn vector(&mut self, v: &Vec3<H>) {
        self.scalars(&v.0);
    }

    #[inline(always)]
    pub fn matrix<const R: usize, const C: usize>(&mut self, m: &Matrix<H, R, C>) {
        let columns: [[[u8; WIDTH]; R]; C] = core::array::from_fn(|c| m.col(c).0.map(bytes));
        self.0.extend_from_slice(columns.as_flattened().as_flattened());
    }

    #[inline(always)]
    pub fn quat(&mut self, q: &Quat<H>) {
        self.scalars(&[q.w, q.x, q.y, q.z]);
    }

    #[inline(always)]
    pub fn pose(&mut self, x: &Sim3<H>) {
        let (r, t, sigma) = x.parts();
        let (q, [x, y, z]) = (r.quat(), t.0);
        self.scalars(&[q.w, q.x, q.y, q.z, x, y, z, sigma]);
    }

    #[inline(always)]
    pub fn frames(&mut self, f: Frames) {
        self.raw([f.from.to_le_bytes(), f.to.to_le_bytes()].as_flattened());
    }

    #[inline(always)]
    pub fn tangent(&mut self, tau: &Sim3Tangent<H>) {
        let ([a, b, c], [x, y, z]) = (tau.phi.0, tau.rho.0);
        self.scalars(&[a, b, c, x, y, z, tau.sigma]);
    }

    #[inline(always)]
    pub fn block(&mut self, j: &Sim3Jac<H>) {
        let (a, b, c, f, e): (Mat3<H>, Mat3<H>, Mat3<H>, Vec3<H>, H) = block_parts(j);
        self.matrix(&a);
        self.matrix(&b);
        self.matrix(&c);
        let [x, y, z] = f.0;
        self.scalars(&[x, y, z, e]);
    }
}
