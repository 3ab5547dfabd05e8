"""The host's function values, by Python's math: root, sine, exponential and the rotation Jacobians. The engine takes
any numbers here; these are the true ones.

The values of the negative tangent, which no function of the C library takes, follow from those of the tangent: up and
down are exchanged; so are e and e0, and m and m0, where sigma is a zero; the others are the same. Its rotation
Jacobians are the transposes.
"""
import math
from typing import Callable, List, Sequence, Tuple

NAN, INF = float("nan"), float("inf")
CLOSED_FROM = 1.0  # squared angle from which the closed forms lose no digits


def guarded(function):
    """A function of math as IEEE 754 has it: NaN outside its domain, infinity on overflow."""
    def call(x):
        try:
            return function(x)
        except ValueError:
            return NAN
        except OverflowError:
            return INF
    return call


root, sine, cosine, tangent = (guarded(f) for f in (math.sqrt, math.sin, math.cos, math.tan))
exponential, exponential_less_1 = guarded(math.exp), guarded(math.expm1)


def norm_sq(phi: Sequence[float]) -> float:
    """z, by the same sum as the engine's."""
    x, y, z = phi
    return (x * x + y * y) + z * z


def shrinking(sigma):
    """t = -|sigma|, but sigma itself if it is a zero, whose sign matters, or a NaN."""
    return -abs(sigma) if sigma != 0 and sigma == sigma else sigma


def values(sigma: float, z: float, root: Callable[[float], float] = root) -> List[float]:
    """The ten function values for a log scale and a squared angle: root, sin_half, cos_half, sin,
    e, m, e0, m0, up, down. `root` computes the root: math's, or sim3.nearest_root."""
    r = root(z)
    here, there = shrinking(sigma), shrinking(-sigma)
    return [r, sine(0.5 * r), cosine(0.5 * r), sine(r),
            exponential(here), exponential_less_1(here),
            exponential(there), exponential_less_1(there),
            exponential(sigma), exponential(-sigma)]


def tangent_values(tau: Sequence[float], root: Callable[[float], float] = root) -> List[float]:
    """The ten values of a tangent."""
    return values(tau[6], norm_sq(tau[:3]), root)


def up(x: Sequence[float]) -> float:
    """e^sigma of a pose's eight numbers."""
    return exponential(x[7])


def down(x: Sequence[float]) -> float:
    """e^-sigma of a pose's eight numbers."""
    return exponential(-x[7])


def ds(x: Sequence[float], y: Sequence[float]) -> float:
    """e^(sigma of X - sigma of Y), which X Y^-1 reads."""
    return exponential(x[7] - y[7])


def series(z, weight):
    """The sum of (-1)^i weight(i) z^i for z below CLOSED_FROM, from the highest term."""
    total = 0.0
    for i in reversed(range(12)):
        total = weight(i) - z * total
    return total


def rotation_coefficients(z):
    """a, b, c of J = I + a W + b W^2 and its inverse I - W/2 + c W^2, W the hat of phi.

    a = (1 - cos r)/z, b = (r - sin r)/r^3, c = (1 - (r/2) cot(r/2))/z; near zero by the series of
    a, of b and of 2 a c = (2 a - sin r/r)/z.
    """
    if z < CLOSED_FROM:
        a = series(z, lambda i: 1 / math.factorial(2 * i + 2))
        b = series(z, lambda i: 1 / math.factorial(2 * i + 3))
        return a, b, series(z, lambda i: (2 * i + 2) / math.factorial(2 * i + 4)) / (2 * a)
    r = root(z)
    s, t = sine(0.5 * r), tangent(0.5 * r)
    return 2 * s * s / z, (r - sine(r)) / (r * z), (1 - 0.5 * r / t) / z


def rotation_jacobians(phi: Sequence[float]) -> Tuple[List[float], List[float]]:
    """SO(3)'s left Jacobian at phi and its inverse, each column by column."""
    x, y, z = phi
    hat = [0.0, z, -y, -z, 0.0, x, y, -x, 0.0]
    square = [phi[row] * phi[column] - (norm_sq(phi) if row == column else 0.0)
              for column in range(3) for row in range(3)]
    unit = [1.0, 0.0, 0.0, 0.0, 1.0, 0.0, 0.0, 0.0, 1.0]
    a, b, c = rotation_coefficients(norm_sq(phi))
    entries = list(zip(unit, hat, square))
    return ([i + (a * w + b * w2) for i, w, w2 in entries],
            [i + (c * w2 - 0.5 * w) for i, w, w2 in entries])
