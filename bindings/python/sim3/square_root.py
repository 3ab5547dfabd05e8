"""The square root with its remainder, and its double for the host's values."""
from typing import NamedTuple

from . import arrays, raw
from .numbers import number
from .refusals import Refusal, explained


class Root(NamedTuple):
    """For a finite z > 0, z = m * 4**exponent with an integer m, 2**104 <= m < 2**106: `root` is the largest integer
    whose square is at most m, `remainder` is m - root**2, and `nearest` the double nearest to the square root of z. For
    a zero all are zeros, and `nearest` has its sign."""

    root: int
    remainder: int
    exponent: int
    nearest: float


def root(z: float) -> Root:
    """The square root of z with its remainder, a Root; Refusal 1 if z is below zero, 8 if it is a NaN or infinite. Of
    an array (n,) a RootRows."""
    if arrays.is_rows(z, 1):
        return arrays.roots(z)
    z = number("sim3.root: z", z)
    whole, exponent, nearest = ((kind * count)() for kind, count in raw.ROOT_WRITES.values())
    refused = raw.call("root", z, whole, exponent, nearest)
    if refused:
        raise explained(refused, "root", {"z": z})
    return Root(*whole, *exponent, *nearest)


def nearest_root(z: float) -> float:
    """The double of root(z), for host.values(sigma, z, root=sim3.nearest_root). Where root refuses, the root of IEEE
    754: a NaN below zero; a NaN and +infinity themselves. Of an array (n,) one of the same shape."""
    if arrays.is_rows(z, 1):
        return arrays.nearest_roots(z)
    try:
        return root(z).nearest
    except Refusal as refusal:
        return z if refusal.number == 8 else float("nan")
