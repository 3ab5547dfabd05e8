"""Doubles as text and bits, and the host's function values."""
import random

from .common import MINUS, MINUS32, NAN, NAN32, ODD, ODD32, ONE, ONE32, holds, same
from fractions import Fraction
from jobs_lib import floats, host
from jobs_lib.floats import DOUBLE, SINGLE


def text_reads_back():
    """A number's text reads back as the same bits, whatever the number, at both widths."""
    source = random.Random(1)
    for width, odd in ((DOUBLE, ODD), (SINGLE, ODD32)):
        for bits in [*odd, *(source.getrandbits(8 * width.size) for _ in range(20000))]:
            same(width.read(width.text(bits)), bits, width.text(bits))


def singles_are_short():
    """A single is shown with the fewest digits that read back, and never with more than nine."""
    for bits, text in [(0x3DCCCCCD, "0.1"), (0x3EAAAAAB, "0.33333334"), (1, "1e-45"), (0x7F7FFFFF, "3.4028235e+38"),
                       (0x80000000, "-0.0"),
                       (0x4B800001, "16777218.0"), (0x40490FDB, "3.1415927"), (NAN32, "nan"),
                       (0xFFC00000, "nan:ffc00000"), (0x7F800001, "nan:7f800001")]:
        same(SINGLE.text(bits), text, hex(bits))


def singles_are_rounded_once():
    """A word midway between two doubles' singles goes to the side on which the word itself lies, on a tie to the even
    one."""
    source = random.Random(2)
    for bits in [0, 1, 0x007FFFFF, 0x3F800000, 0x7F7FFFFE, *(source.randrange(0x7F7FFFFF) for _ in range(300))]:
        low, high = Fraction(SINGLE.from_bits(bits)), Fraction(SINGLE.from_bits(bits + 1))
        middle, bit = (low + high) / 2, 1 << 200
        for tiny, expected in ((-1, bits), (0, bits + bits % 2), (1, bits + 1)):
            exact = middle + tiny * Fraction(1, bit) * middle
            word = f"0x{exact.numerator:x}p{-(exact.denominator.bit_length() - 1)}"
            assert exact.denominator & (exact.denominator - 1) == 0, "no hexadecimal has this number"
            same((SINGLE.read(word), SINGLE.read("-" + word)), (expected, expected | MINUS32), word)
    for word, expected in [("1.00000005960464477539062", ONE32), ("1.000000059604644775390625", ONE32),
                           ("1.00000005960464477539063", ONE32 + 1),
                      ("3.4028235677973366e38", 0x7F7FFFFF), ("7e-46", 0), ("7.1e-46", 1)]:
        same(SINGLE.read(word), expected, word)


def words_that_are_numbers():
    for word, bits in [("0x1.8p3", 0x4028000000000000), ("-0", MINUS), ("0x.8", 0x3FE0000000000000),
                       ("-0x1p-1074", MINUS | 1), ("bits:3FF0000000000000", ONE),
                       (".5e1", 0x4014000000000000), ("+inf", 0x7FF0000000000000), ("nan", NAN),
                       ("1e-400", 0), ("nan:fff8000000000001", MINUS | NAN | 1)]:
        same(DOUBLE.read(word), bits, word)
    for word, bits in [("0x1.8p3", 0x41400000), ("-0", MINUS32), ("0x.8", 0x3F000000), ("-0x1p-149", MINUS32 | 1),
                       ("bits:3F800000", ONE32),
                       ("0.1", 0x3DCCCCCD), ("+inf", 0x7F800000), ("nan", NAN32), ("1e-400", 0),
                       ("nan:ffc00001", MINUS32 | NAN32 | 1)]:
        same(SINGLE.read(word), bits, word)


def words_that_are_none():
    common = ["0x1p2000", "1_0", "infinity", "bits:3ff", "0x", "1e", "--1", "\u0661", "-nan", ".", "1,"]
    for width, more in ((DOUBLE, ["1e400", "nan:3ff0000000000000", "bits:3f800000"]),
                        (SINGLE, ["1e39", "3.4028236e38", "-1e400", "0x1p128", "nan:3f800000",
                                  "bits:3ff0000000000000"])):
        for word in common + more:
            try:
                found = width.read(word)
            except floats.BadNumber as error:
                holds(str(error), "expected")
            else:
                raise AssertionError(f"{word} was read as {found}")


def distances():
    for width, one, nan, minus in ((DOUBLE, ONE, NAN, MINUS), (SINGLE, ONE32, NAN32, MINUS32)):
        same(width.ulps(one, one + 1), 1, "1 and its neighbour")
        same(width.ulps(1, minus | 1), 2, "the least numbers on both sides of zero")
        same(width.ulps(0, minus), 0, "the zeros")
        same(width.ulps(width.infinity - 1, width.infinity), 1, "the largest and infinity")
        same(width.ulps(nan, 0), None, "a NaN")


def ten_values():
    """The host's values where a rule of their own holds: zeros, NaN, overflow, z below zero."""
    for sigma, z, expected in [(0.0, -1.0, "nan nan nan nan 1.0 0.0 1.0 -0.0 1.0 1.0"),
                               (-0.0, 0.0, "0.0 0.0 1.0 0.0 1.0 -0.0 1.0 0.0 1.0 1.0"),
                               (-1000.0, float("inf"), "inf nan nan nan 0.0 -1.0 0.0 -1.0 0.0 inf"),
                               (float("nan"), 0.0, "0.0 0.0 1.0 0.0 nan nan nan nan nan nan")]:
        given = {"sigma": [sigma], "z": [z]}
        found = " ".join(DOUBLE.text(DOUBLE.to_bits(x)) for x in host.computed("values", given))
        same(found, expected, f"values at sigma {sigma}, z {z}")


def rotation_jacobians():
    """J times its inverse is the identity, both leave phi alone, and the turn has its sign."""
    for size in (0.0, 1e-200, 1e-8, 0.01, 0.87, 0.88, 2.5):
        phi = [size * x for x in (1.0, -0.5, 0.25)]
        j, inverse = host.rotation_jacobians(phi)
        for row in range(3):
            for column in range(3):
                x = sum(j[row + 3 * k] * inverse[k + 3 * column] for k in range(3))
                assert abs(x - (row == column)) < 1e-14, f"{phi}: ({row}, {column}) is {x}"
            for m in (j, inverse):
                x = sum(m[row + 3 * k] * phi[k] for k in range(3))
                assert abs(x - phi[row]) <= 1e-14 * size, f"{phi}: {row} goes to {x}"
    j, inverse = host.rotation_jacobians([0.0, 0.0, 1e-3])
    assert abs(j[1] - 5e-4) < 1e-9 and abs(inverse[1] + 5e-4) < 1e-9, "the turn is the wrong way"


TESTS = [text_reads_back, singles_are_short, singles_are_rounded_once, words_that_are_numbers, words_that_are_none,
         distances, ten_values,
         rotation_jacobians]
