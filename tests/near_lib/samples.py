"""The pairs (sigma, z) of the tests, as bit patterns of a width."""
import random

from .exact import DOUBLE, SINGLE


class Samples:
    """The pairs of one width: `closed` is the first sigma whose square reaches the closed limit, `known` has pairs with
    the expected answers, and `odd` patterns of unusual sizes."""

    def __init__(self, width, closed, known, odd):
        self.width, self.known = width, known
        self.sign = 1 << (width.bits - 1)
        limits = [limit + step for limit in width.limits for step in (-1, 0)]
        self.odd = [0, 1, 2, *odd, closed - 1, closed, closed + 1, width.infinity - 1, width.infinity,
                    width.infinity + 1, *limits]

    def scale(self, source):
        """A sigma: of any size, or such that its square lies in the range of the limits."""
        x = source.choice((source.uniform(-1.6, 1.6), 10.0 ** source.uniform(-12, 0.2),
                           -(10.0 ** source.uniform(-200, 1)), 0.0))
        return self.width.pattern(x)

    def beside(self, source):
        """A z within some steps of the first with a higher arm, few or many."""
        sigma = self.scale(source)
        start = source.choice(self.width.starts(self.width.value(sigma)))
        many = 1 << (self.width.bits // 2 + 8)
        away = source.choice((source.randrange(-9, 10), source.randrange(-1000, 1001), source.randrange(-many, many)))
        return sigma, self.clamp(start + away)

    def middle(self, source):
        """A z in the middle of its arm, where both directions need the same count or differ by one or two."""
        sigma = self.scale(source)
        starts = self.width.starts(self.width.value(sigma))
        low, high = source.choice([(0, starts[0]), *zip(starts, starts[1:])])
        return sigma, self.clamp((low + high) // 2 + source.randrange(-2, 3))

    def plateau(self, source):
        """A sigma whose square is a few steps below a limit, and a small z."""
        limit = self.width.value(source.choice(self.width.limits))
        small = source.randrange(self.width.pattern(1.0))
        return self.width.pattern(limit ** 0.5) - source.randrange(0, 4), source.choice((0, 1, small))

    def any(self, source):
        return source.getrandbits(self.width.bits), source.getrandbits(self.width.bits)

    def anywhere(self, source):
        return self.scale(source), source.randrange(self.width.infinity)

    def clamp(self, pattern):
        """The nearest pattern of a finite number from +0 up."""
        return min(max(pattern, 0), self.width.infinity - 1)

    def draw(self, seed, count):
        """Known pairs, all odd ones with either sign, and so many drawn."""
        source = random.Random(seed)
        odd = [b | s for b in self.odd for s in (0, self.sign)]
        pairs = [*self.known, *((s, z) for s in odd for z in odd)]
        generators = [self.beside, self.middle, self.plateau, self.any, self.anywhere]
        return pairs + [source.choice(generators)(source) for _ in range(count)]


# The expected answers: the ties, where up is first; one step below the closed limit and at it; zeros; refusals; the
# largest numbers.
DOUBLES = Samples(DOUBLE, 0x3FF684F9AAB51FDC, {
    (0, 0x3FE84D09AC60CC82): (0, 0x1764F60FC9D00A, 1, 5),
    (0x3FF684F9AAB51FDB, 0): (0, 0x3CA0000000000000, 1, 5),
    (0x3FF684F9AAB51FDC, 0): (0, 0, 0, 0),
    (0xBFF684F9AAB51FDC, 0x7FEFFFFFFFFFFFFF): (0, 0, 0, 0),
    (0, 0): (0, 0x3F0C70E59CFC9F1F, 1, 2),
    (0, 0x8000000000000000): (0, 0x3F0C70E59CFC9F1F, 1, 2),
    (0x7FF8000000000000, 0xBFF0000000000000): (1, 0, 0, 0),
    (0, 0xFFF0000000000000): (1, 0, 0, 0),
    (0x7FF0000000000000, 0): (8, 0, 0, 0),
    (0x7FF8000000000000, 0): (8, 0, 0, 0),
    (0, 0x7FF0000000000000): (8, 0, 0, 0),
    (0, 0x7FF8000000000000): (8, 0, 0, 0),
    (0x7FEFFFFFFFFFFFFF, 0x7FEFFFFFFFFFFFFF): (0, 0, 0, 0),
}, [0x000FFFFFFFFFFFFF, 0x0010000000000000, 0x3CA0000000000000, 0x3FEFFFFFFFFFFFFF, 0x3FF0000000000000,
    0x5FE0000000000000, 0x5FF0000000000000, 0x7FF8000000000000])

SINGLES = Samples(SINGLE, 0x3FC51C50, {
    (0, 0x3E920C09): (0, 0x8E51EA, 1, 4),
    (0, 0x3F9C1144): (0, 0x7BB352, 1, 5),
    (0x3FC51C4F, 0): (0, 0x34000000, 1, 5),
    (0x3FC51C50, 0): (0, 0, 0, 0),
    (0xBFC51C50, 0x7F7FFFFF): (0, 0, 0, 0),
    (0, 0): (0, 0x3A7CE158, 1, 2),
    (0, 0x80000000): (0, 0x3A7CE158, 1, 2),
    (0, 0x3A7CE157): (0, 1, 1, 2),
    (0, 0x3A7CE158): (0, 1, 0, 1),
    (0, 0x3E03BA1F): (0, 1, 1, 3),
    (0, 0x3E03BA20): (0, 1, 0, 2),
    (0, 0x3F205DF2): (0, 1, 1, 4),
    (0, 0x3F205DF3): (0, 1, 0, 3),
    (0, 0x4017C495): (0, 1, 1, 5),
    (0, 0x4017C496): (0, 1, 0, 4),
    (0x7FC00000, 0xBF800000): (1, 0, 0, 0),
    (0, 0xFF800000): (1, 0, 0, 0),
    (0x7F800000, 0): (8, 0, 0, 0),
    (0x7FC00000, 0): (8, 0, 0, 0),
    (0, 0x7F800000): (8, 0, 0, 0),
    (0, 0x7FC00000): (8, 0, 0, 0),
    (0x7F7FFFFF, 0x7F7FFFFF): (0, 0, 0, 0),
}, [0x007FFFFF, 0x00800000, 0x34000000, 0x3F7FFFFF, 0x3F800000, 0x5F000000, 0x5F800000, 0x7FC00000])
