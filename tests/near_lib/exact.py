"""The expected answer at (sigma, z), computed by fractions and without a search.

The rounded sum of s = sigma sigma and z reaches a limit exactly where s + z reaches the middle between the limit and
the number before it, or lies above that middle where the limit is odd, since a tie is rounded to the even one. So the
first z with a higher arm is the first number of the format from `middle - s` on, and counts are differences of bit
patterns."""
import struct
from fractions import Fraction

DOWN, UP = 0, 1


class Width:
    """A format: how its numbers are packed, and the limits of the arms as bit patterns."""

    def __init__(self, number, word, infinity, limits):
        self.number, self.word, self.infinity = "<" + number, "<" + word, infinity
        self.bits = 8 * struct.calcsize(self.word)
        self.limits = limits
        self.midpoints = [(Fraction(self.value(b - 1)) + Fraction(self.value(b))) / 2 for b in limits]

    def value(self, pattern):
        return struct.unpack(self.number, struct.pack(self.word, pattern))[0]

    def pattern(self, x):
        return struct.unpack(self.word, struct.pack(self.number, x))[0]

    def rounded(self, x):
        """A double rounded to the format; an infinity where it is too large."""
        try:
            return self.value(self.pattern(x))
        except OverflowError:
            return float("inf") if x > 0 else float("-inf")

    def first_from(self, least, strictly):
        """The pattern of the first number from +0 up that is not below `least`, or above it."""
        if least < 0 or (least == 0 and not strictly):
            return 0
        p = self.pattern(self.rounded(least.numerator / least.denominator))
        while p and Fraction(self.value(p - 1)) >= least:
            p -= 1
        while Fraction(self.value(p)) < least or (strictly and Fraction(self.value(p)) == least):
            p += 1
        return p

    def starts(self, sigma):
        """The first patterns of z at which the arms 2 to 5 are reached."""
        square = self.rounded(sigma * sigma)
        if square == float("inf"):
            return [0] * 4
        return [self.first_from(end - Fraction(square), limit % 2 == 1)
                for end, limit in zip(self.midpoints, self.limits)]

    def arm(self, sigma, z):
        """The arm by the format's own sum."""
        delta = self.rounded(self.rounded(sigma * sigma) + z)
        return next((k for k, b in enumerate(self.limits, 1) if delta < self.value(b)), 5)


DOUBLE = Width("d", "Q", 0x7FF0000000000000,
               [0x3F0C70E59CFC9F1F, 0x3FA59742AA36710D, 0x3FD0E8139C96FC79, 0x3FFFB1FFBC2A9C8C])
SINGLE = Width("f", "I", 0x7F800000, [0x3A7CE158, 0x3E03BA20, 0x3F205DF3, 0x4017C496])


def finite(x):
    return x - x == 0


def expected(width, first, sigma, z):
    """The four words that a call gives: the refusal's number or 0, the count, the direction and the arm; three zeros
    where there is no other arm."""
    if z < 0:
        return 1, 0, 0, 0
    if not (finite(sigma) and finite(z)):
        return 8, 0, 0, 0
    p, starts = width.pattern(z) if z else 0, width.starts(sigma)
    arm = 1 + sum(start <= p for start in starts)
    low = max((start for start in starts if start <= p), default=0)
    high = min((start for start in starts if start > p), default=width.infinity)
    candidates = ([(p - low + 1, DOWN)] if low else []) + ([(high - p, UP)] if high < width.infinity else [])
    if not candidates:
        return 0, 0, 0, 0
    count, direction = min(candidates, key=lambda candidate: (candidate[0], candidate[1] != first))
    place = p - count if direction == DOWN else p + count
    assert width.arm(sigma, width.value(p)) == arm
    return 0, count, direction, 1 + sum(start <= place for start in starts)


def by_steps(width, first, sigma, z, most):
    """The same by stepping from neighbour to neighbour, or None where no arm changes within `most` steps."""
    p = width.pattern(z) if z else 0
    arm = width.arm(sigma, width.value(p))
    for count in range(1, most + 1):
        for direction in (first, 1 - first):
            place = p + count if direction == UP else p - count
            if 0 <= place < width.infinity and width.arm(sigma, width.value(place)) != arm:
                return 0, count, direction, width.arm(sigma, width.value(place))
    return None
