"""How far an answer can be from the exact one: the proved bounds of docs/ACCURACY.md, for a box that the caller gives.

    import sim3
    sim3.accuracy.action(point=2**16, scale=16, translation=2**20)        # a Fraction; float(..) is 1.18e-08
    sim3.accuracy.page(point=2**16, scale=4, translation=2**16, joins=1000, every=16)

Each function computes, in whole numbers, what `bound` of crates/rounding/specs/Tree.antt computes for the function's
tree, in units of 2^-100, with `width` 64 or 32. Sizes are upper bounds of absolute values, any int, float or
Fraction. The answer is the absolute error that no number of the result exceeds, a Fraction; OutOfBounds where a number
of the box can overflow, or where no bound is proved. No library is loaded.
"""
from fractions import Fraction
from typing import NamedTuple, Optional, Tuple, Union

Size = Union[int, float, Fraction]
UNIT = 2 ** 100
FORMATS = {64: (53, 1023), 32: (24, 127)}  # binary digits of a significand; the greatest exponent
LENGTHS = {64: 1 + Fraction(1, 2 ** 40), 32: 1 + Fraction(1, 2 ** 16)}  # of quaternions, where none is given
RUNNING_LENGTHS = {64: 1 + Fraction(1, 2 ** 40), 32: 1 + Fraction(1, 2 ** 20)}
SCALE_ERRORS = {64: Fraction(1, 2 ** 53), 32: Fraction(1, 2 ** 24)}  # of a scale's size: one rounding


class OutOfBounds(ValueError):
    """No bound is proved for this box; the text says why."""


def units(size: Size) -> int:
    """A size in units of 2^-100, rounded upward."""
    exact = Fraction(size) * UNIT
    if exact < 0:
        raise OutOfBounds(f"sim3.accuracy: the size {size} is below zero; give the greatest absolute value")
    return -(-exact.numerator // exact.denominator)


def upward(unit: int, a: int) -> int:
    """`upward` of the specs: a / unit rounded down, plus 1."""
    return a // unit + 1


class Bound(NamedTuple):
    """In units: the exact value is at most `magnitude` in size, and the computed one within `error` of it."""

    width: int
    magnitude: int
    error: int = 0

    def rounding(self, x: int) -> int:
        """The error of one rounding of a number of at most x units; OutOfBounds where it can overflow."""
        digits, greatest = FORMATS[self.width]
        error = x // 2 ** digits + 1 + UNIT // 2 ** (greatest + digits - 1) + 1
        if x + error >= 2 ** (greatest + 1) * UNIT:
            raise OutOfBounds("sim3.accuracy: a number of this box can overflow, so nothing is proved; "
                              "give smaller sizes")
        return error

    def reach(self) -> int:
        return self.magnitude + self.error

    def __add__(self, other):
        return Bound(self.width, self.magnitude + other.magnitude,
                     self.error + other.error + self.rounding(self.reach() + other.reach()))

    __sub__ = __add__  # a difference is the sum with the opposite, whose bound is the same

    def __mul__(self, other):
        near = upward(UNIT, self.reach() * other.error + self.error * other.magnitude)
        return Bound(self.width, upward(UNIT, self.magnitude * other.magnitude),
                     near + self.rounding(upward(UNIT, self.reach() * other.reach())))


def rotated(two, q, v):
    """The bound of one number of (v + 2w (u × v)) + 2 u × (u × v), as `tree_act` of the specs forms it."""
    uv = q * v - q * v
    uuv = q * uv - q * uv
    return v + uv * (two * q) + uuv * two


def moved(q, point, scale, translation):
    """The bound of one number of s R p + t."""
    return rotated(Bound(q.width, 2 * UNIT), q, point) * scale + translation


def hamilton(p, q):
    """The bound of one number of the product of two quaternions."""
    return p * q - p * q - p * q - p * q


def newton(q):
    """The bound of one number of q (3 - |q|²) / 2."""
    square = q * q + q * q + q * q + q * q
    return q * ((Bound(q.width, 3 * UNIT) - square) * Bound(q.width, (UNIT + 1) // 2))


def check_width(width):
    if width not in FORMATS:
        raise OutOfBounds(f"sim3.accuracy: the width {width!r} is neither 64 nor 32")
    return width


def leaf(width, size):
    return Bound(check_width(width), units(size))


def fraction(error):
    return Fraction(error, UNIT)


def rotation_leaf(width, quaternion):
    """A quaternion whose numbers are at most `quaternion`."""
    return leaf(width, LENGTHS[check_width(width)] if quaternion is None else quaternion)


def true_error(away: int, point: int, scale: int) -> int:
    """How far the formula's rotation can be from the true one, where |q|² is within `away` of 1: `true_error` of
    crates/accuracy/specs/Rotation.antt."""
    return upward(UNIT, upward(UNIT, 3 * away * point) * scale)


def turn_error(length: int, error: int, point: int) -> int:
    """How far a rotation of a vector can be from that by a quaternion within `error`, whose length is at most `length`:
    `turn_error` of crates/accuracy/specs/Rotation.antt."""
    near, longer = upward(UNIT, error * point), length + error + 2
    return (upward(UNIT, 2 * near * longer) + upward(UNIT, length * (2 * near))
            + upward(UNIT, upward(UNIT, error * (longer + length + 1)) * point))


def action(point: Size, scale: Size, translation: Size, quaternion: Optional[Size] = None, width: int = 64,
           square: Optional[Size] = None) -> Fraction:
    """Of each coordinate of X p (ActionTheorem), for the scale e^sigma that is passed. With `square`, how far |q|² is
    from 1 at most, it is the distance from the action by the true rotation, q p q̄ / |q|² (RotationTheorem)."""
    q = rotation_leaf(width, quaternion)
    error = moved(q, leaf(width, point), leaf(width, scale), leaf(width, translation)).error
    return fraction(error if square is None else error + true_error(units(square), units(point), units(scale)))


def action_by_matrix(point: Size, scale: Size, translation: Size, quaternion: Optional[Size] = None,
                     width: int = 64) -> Fraction:
    """Of each coordinate of a point that act_many moves, by the matrix s R (ManyPointsTheorem)."""
    q, p, s, t = rotation_leaf(width, quaternion), leaf(width, point), leaf(width, scale), leaf(width, translation)
    twice = Bound(width, 2 * UNIT) * q
    off = (twice * q + twice * q) * s * p
    on = (Bound(width, UNIT) - (twice * q + twice * q)) * s * p
    return fraction(max((on + off + off + t).error, (off + off + on + t).error))


def norm_sq(phi: Size, width: int = 64) -> Fraction:
    """Of |phi|², for numbers of phi up to this (NormTheorem)."""
    x = leaf(width, phi)
    return fraction((x * x + x * x + x * x).error)


def product(left: Optional[Size] = None, right: Optional[Size] = None, width: int = 64) -> Fraction:
    """Of each number of a product of quaternions (QuaternionTheorem)."""
    left, right = (LENGTHS[check_width(width)] if size is None else size for size in (left, right))
    return fraction(hamilton(leaf(width, left), leaf(width, right)).error)


def renormalized(quaternion: Optional[Size] = None, width: int = 64) -> Fraction:
    """Of each number of a renormalised quaternion against the exact Newton step (QuaternionTheorem)."""
    return fraction(newton(leaf(width, LENGTHS[check_width(width)] if quaternion is None else quaternion)).error)


def inverse(translation: Size, scale: Size, quaternion: Optional[Size] = None, width: int = 64,
            square: Optional[Size] = None) -> Fraction:
    """Of each number of the translation of X^-1, for the scale e^-sigma that is passed (QuaternionTheorem); with
    `square`, as in `action`, the distance from that by the true rotation (RotationTheorem)."""
    q = rotation_leaf(width, quaternion)
    error = (rotated(Bound(width, 2 * UNIT), q, leaf(width, translation)) * leaf(width, scale)).error
    return fraction(error if square is None else error + true_error(units(square), units(translation), units(scale)))


# By the width: the greatest number of phi, and v0, v1, v2 below the limit of the series.
EXPONENTIAL = {64: (3 * 2 ** 99, ((9 * 2 ** 98, 2 ** 51), (7 * 2 ** 98, 2 ** 53), (5 * 2 ** 97, 2 ** 52))),
               32: (13 * 2 ** 97, ((5 * 2 ** 99, 2 ** 81), (2 ** 101, 2 ** 82), (3 * 2 ** 98, 2 ** 80)))}


def rounded_exponential(rho, width):
    """The bound of each number of the translation of Exp(tau) beside the exact one at the computed |phi|²."""
    most, coefficients = EXPONENTIAL[check_width(width)]
    phi, v = Bound(width, most), leaf(width, rho)
    x0, x1, x2 = (Bound(width, UNIT) * Bound(width, size, error) for size, error in coefficients)
    mu = phi * v - phi * v
    nu = phi * mu - phi * mu
    return v * x0 + mu * x1 + nu * x2


NORM_MOVES = {64: 2 ** 53, 32: 2 ** 82}  # `norm_moves` of crates/accuracy/specs/Exponential.antt: by the size of rho


def exponential(rho: Size, width: int = 64) -> Fraction:
    """Of each number of the translation of Exp(tau), where the numbers of phi are at most 3/2 (13/8 at singles) and the
    series give the coefficients (ExponentialTheorem)."""
    error = rounded_exponential(rho, width).error
    return fraction(error + upward(UNIT, NORM_MOVES[width] * units(rho)))


class JoinBox(NamedTuple):
    """What is known of the poses that are joined, in units: `JoinBox` of crates/running_accuracy/specs/Running.antt."""

    length: int  # of each rotation at most
    square: int  # how far the square of a length is from 1 at most
    translation: int
    scale: int
    scale_error: int
    longest: int  # the running rotation's length at most
    drift: int  # how far one product moves the square of that length
    every: int

    def away(self):
        return self.drift * (self.every + 1)

    def holds(self):
        """`box_holds` of the specs."""
        away = self.away()
        return (self.square + 3 * upward(UNIT, self.drift * self.every * self.square) <= self.drift
                and upward(UNIT, away * away) <= self.drift and self.square <= self.drift
                and UNIT * (UNIT + away) <= self.longest * self.longest and 4 * away <= UNIT)


def join_box(translation, scale, scale_error, length, every):
    """A box in which the bounds are proved, of sizes."""
    longest = units(length)
    square = upward(UNIT, longest * longest) - UNIT
    drift = square + 3 * upward(UNIT, 2 * square * every * square) + 1
    box = JoinBox(longest, square, units(translation), units(scale), units(scale_error),
                  UNIT + drift * (every + 1) // 2 + 1, drift, every)
    if not box.holds():
        raise OutOfBounds("sim3.accuracy: the quaternions are too far from length 1 for so many products between two "
                          "renormalisations; give a smaller n or a length nearer to 1")
    return box


class Joins:
    """The bounds after each join of a running join: `step_bound` of crates/running_accuracy/specs/Running.antt."""

    def __init__(self, width, box):
        self.width, self.box = check_width(width), box
        self.scale = Bound(width, box.scale, box.scale_error)
        self.rotation, self.translation = 0, Bound(width, box.translation)

    def moved(self, point):
        """The bound of a coordinate of a point moved by the running pose: `moved_bound` of
        crates/running_accuracy/specs/Joins.antt."""
        def sized(size):
            return Bound(self.width, size)
        longest, scale = self.box.longest, self.scale
        exact = moved(sized(longest), point, sized(scale.magnitude), sized(self.translation.magnitude))
        computed = moved(sized(longest + self.rotation), point, sized(scale.reach()), sized(self.translation.reach()))
        turned = turn_error(longest, self.rotation, point.magnitude)
        size = rotated(sized(2 * UNIT), sized(longest), point).magnitude
        carried = upward(UNIT, (size + turned) * scale.error + turned * scale.magnitude) + self.translation.error
        return Bound(self.width, exact.magnitude, computed.error + carried)

    def join(self):
        """One product more, as if it were renormalised."""
        one = hamilton(Bound(self.width, self.box.longest + self.rotation), Bound(self.width, self.box.length)).error
        product = 2 * one + upward(UNIT, self.rotation * self.box.length)
        self.translation = self.moved(Bound(self.width, self.box.translation))
        near = self.box.longest + product
        if 4 * near * near > 7 * UNIT * UNIT:
            raise OutOfBounds("sim3.accuracy: the rotation's error grows too large for a renormalisation; "
                              "give fewer joins")
        cube = upward(UNIT * UNIT, product ** 3)
        self.rotation = (2 * newton(Bound(self.width, near)).error
                         + upward(2 * UNIT, (2 * UNIT + self.box.away()) * (product + cube)))


def after_joins(joins, every, width, translation, scale, scale_error, length):
    if not 1 <= every <= 65_535:
        raise OutOfBounds(f"sim3.accuracy: n is {every}; bounds are proved for 1 to 65,535")
    error = Fraction(scale) * SCALE_ERRORS[check_width(width)] if scale_error is None else scale_error
    length = RUNNING_LENGTHS[width] if length is None else length
    state = Joins(width, join_box(translation, scale, error, length, every))
    for _ in range(joins):
        state.join()
    return state


def running(joins: int, every: int, translation: Size, scale: Size, scale_error: Optional[Size] = None,
            length: Optional[Size] = None, width: int = 64) -> Tuple[Fraction, Fraction]:
    """Of each number of the running rotation and of the running translation after at most `joins` joins, renormalised
    after every nth, n at most `every` (RunningTheorem): translations of the poses, and the scale of the running pose
    with the error with which it is handed in, one rounding if not given. The length of a
    quaternion that comes is within `length` - 1 of 1."""
    state = after_joins(joins, every, width, translation, scale, scale_error, length)
    return fraction(state.rotation), fraction(state.translation.error)


def page(joins: int, every: int, point: Size, translation: Size, scale: Size, scale_error: Optional[Size] = None,
         length: Optional[Size] = None, width: int = 64) -> Fraction:
    """Of each coordinate of a point that the running pose moves after at most `joins` joins (RunningTheorem)."""
    state = after_joins(joins, every, width, translation, scale, scale_error, length)
    return fraction(state.moved(leaf(width, point)).error)


def similarity(joins: int, every: int, point: Size, translation: Size, scale: Size,
               scale_error: Optional[Size] = None, length: Optional[Size] = None, width: int = 64) -> Fraction:
    """The same beside the product of the poses as similarities with true rotations (SimilarityTheorem)."""
    state = after_joins(joins, every, width, translation, scale, scale_error, length)
    away, box = state.box.away(), state.box
    formulas = true_error(away, units(point), box.scale) + joins * true_error(away, box.translation, box.scale)
    return fraction(state.moved(leaf(width, point)).error + formulas)


def sigma_units(joins, most, width):
    """The least error that so many roundings of a sum of `most` and it come to."""
    error = 0
    while True:
        found = joins * Bound(check_width(width), 0).rounding(most + error)
        if found == error:
            return error
        error = found


def sigma(joins: int, most: Size, width: int = 64) -> Fraction:
    """Of sigma of the running pose after at most `joins` joins, whose sums of sigma are at most `most`
    (SigmaTheorem)."""
    return fraction(sigma_units(joins, units(most), width))


def scale_of_joins(joins: int, most: Size, width: int = 64) -> Fraction:
    """How much farther than the host's own error its e^sigma of the running pose is from the product of the poses'
    scales, in such a history (ScaleTheorem)."""
    most = units(most)
    error = sigma_units(joins, most, width)
    twice, power, largest, j = Fraction(2 * (most + error), UNIT), Fraction(1), Fraction(1), 0
    while j <= twice:  # (2 x)^j / j! falls from there on
        j += 1
        power = power * twice / j
        largest = max(largest, power)
    return fraction(2 * error * -(-largest.numerator // largest.denominator))
