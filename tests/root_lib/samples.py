"""Patterns of doubles to take the root of."""
import random

SIGN = 1 << 63
ONE = 1 << 52
INFINITY = 0x7FF << 52
MOST = INFINITY - 1

# Zeros, infinities, NaNs, the ends of the subnormals and of the doubles, small numbers, and the three z whose remainder
# is r.
SPECIAL = [0, 1, 2, 3, ONE - 1, ONE, ONE + 1, MOST, INFINITY, INFINITY + 1, 0x7FF8 << 48, 0x7FFF << 48, 0x3FF0 << 48,
           0x4000 << 48, 0x4010 << 48]
SPECIAL += [0x3FF0000000000001, 0x400FFFFFFFFFFFFF, 0x7FEFFFFFFFFFFFFF]


def binades(draw, count):
    """Every exponent: both ends, their neighbours, and some between."""
    for field in range(2047):
        for digits in (0, 1, ONE - 2, ONE - 1):
            yield field << 52 | digits
        for _ in range(count):
            yield field << 52 | draw.getrandbits(52)


def subnormals(draw, count):
    """Every length of a subnormal: its ends, and some between."""
    for length in range(52):
        low = 1 << length
        yield from (low, low + 1, 2 * low - 1)
        for _ in range(count):
            yield low | draw.getrandbits(length)


def of_digits(draw, c):
    """A double with m = c * 2^52, or one less for an odd c from 2^53 on: its significand is c or half of c, and the
    parity of its exponent tells which."""
    odd, significand = (0, c) if c < 2 * ONE else (1, c // 2)
    return (2 * draw.randrange(1023) + 1 + odd) << 52 | significand - ONE


def beside(draw, c):
    """Doubles with m = c * 2^52 and with the two numbers beside c, where they are in range."""
    return [of_digits(draw, n) for n in (c - 1, c, c + 1) if ONE <= n < 4 * ONE]


def squares(draw, count):
    """Neighbours of squares, m = r^2, and of the middles between two roots, m = (r + 1/2)^2; and of the squares that
    doubles are."""
    for _ in range(count):
        r = draw.randrange(ONE, 2 * ONE)
        yield from beside(draw, r * r >> 52)
        yield from beside(draw, r * r + r >> 52)
        whole = draw.randrange(1 << 26, 1 << 27)
        yield from beside(draw, whole * whole)


def drawn(seed, binade, subnormal, square, other):
    """All samples: so many of each kind, and of any pattern; and one in fifty again with the other sign."""
    draw = random.Random(f"root {seed}")
    found = [*SPECIAL, *binades(draw, binade), *subnormals(draw, subnormal), *squares(draw, square)]
    found += [draw.getrandbits(64) for _ in range(other)]
    return found + [b ^ SIGN for b in SPECIAL] + [draw.choice(found) ^ SIGN for _ in range(len(found) // 50)]
