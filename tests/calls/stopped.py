"""One pass over the reciprocals, stopped: the sums of `pass_stopped` at several stops, against the same sums worked
here.

Each of the four sums, v0 and w0 at sigma and at -sigma, is Horner's, one sign alone: from +0, entry by entry from the
highest reciprocal of the sum down. The reciprocals are exact fractions, rounded once at the width.
"""
import ctypes
import math
import struct
from fractions import Fraction

from framed import canonical_nans
from records import BY_ID, difference

ID = 221
REFUSED, MOST = 4, 28
CLOSED = {"f64": (16, 15), "f32": (9, 8)}  # the terms of v0 and of w0 in the closed arm at small sigma
SIGMAS = (0.0, -0.0, 0.5, -0.5, 0.763, -1.4, 3.0, 1e-9, 1e-310, 1e-40, 700.0, -1e30, 1e308, math.inf, -math.inf,
          math.nan)
COUNTS = (0, 1, 2, 4, 6, 7, 9, 11, 14, 19, 28, 29, 30, 2**64 - 1)
STOPS = (0, 1, 2, 5, 8, 9, 10, 14, 15, 16, 17, 28, 29, 2**64 - 1)


def single(x):
    """A double rounded to f32."""
    return ctypes.c_float(x).value


def rounded(width):
    """What rounds the result of one operation on numbers of a width, worked in doubles: to f32 that is one rounding,
    since a double has more than twice the bits."""
    return single if width.name == "f32" else float


def reciprocal(n, width):
    """1/n!, rounded once."""
    exact = Fraction(1, math.factorial(n))
    if width.name == "f64":
        return float(exact)
    bits = struct.unpack("<I", struct.pack("<f", float(exact)))[0]
    near = [(b, struct.unpack("<f", struct.pack("<I", b))[0]) for b in (bits - 1, bits, bits + 1)]
    return min(near, key=lambda pair: (abs(Fraction(pair[1]) - exact), pair[0] % 2))[1]


def horner(sigma, first, terms, stop, width):
    """The sum of sigma^i/(i + first)! over i < terms after `stop` of its entries."""
    total, round_ = 0.0, rounded(width)
    for i in range(min(stop, terms)):
        total = round_(reciprocal(terms - 1 - i + first, width) + round_(sigma * total))
    return total


def sums(sigma, v_terms, w_terms, stop, width):
    """v0 at sigma and at -sigma, then w0."""
    return [horner(s, first, terms, stop, width) for first, terms in ((1, v_terms), (2, w_terms))
            for s in (sigma, -sigma)]


def expected_answer(sigma, k, stop, width):
    """The answer: the series arm's sums from the pass and from each sign alone, then the closed arm's."""
    if MOST < k:
        return bytes([REFUSED])
    expected_sums = 2 * sums(sigma, k, k, stop, width) + 2 * sums(sigma, *CLOSED[width.name], stop, width)
    return b"\0" + canonical_nans(struct.pack(f"<{len(expected_sums)}{width.number}", *expected_sums), width)


def failure(replay, width):
    """What is wrong with the answers, or None."""
    cases = [(rounded(width)(sigma), k, stop) for sigma in SIGMAS for k in COUNTS for stop in STOPS]
    records_in = b"".join(bytes([ID]) + struct.pack(f"<{width.number}QQ", *case) for case in cases)
    result = replay(records_in)
    if result.returncode:
        return f"replay stopped with status {result.returncode}: {result.stderr.decode().strip()}"
    return difference(records_in, b"".join(expected_answer(*case, width) for case in cases), result.stdout, width)


def name():
    return f"{ID} {BY_ID[ID].name}"
