//! Shim of the point: the coordinates alone.

/// A point of `N` coordinates.
#[derive(Clone, Copy, Debug)]
#[repr(transparent)]
pub struct Point<S, const N: usize>(pub [S; N]);

/// A point in space.
pub type Point3<S> = Point<S, 3>;
