"""Patterns, tangents and lists of tangents for the tests of the order."""
import random

INFINITY, SIGN = 0x7FF0_0000_0000_0000, 1 << 63
SIZES = [0, 1, 2, 0x000F_FFFF_FFFF_FFFF, 0x0010_0000_0000_0000, 0x3FEF_FFFF_FFFF_FFFF, 0x3FF0_0000_0000_0000,
         0x7FEF_FFFF_FFFF_FFFF, INFINITY,
         INFINITY + 1, INFINITY + 2, 0x7FF7_FFFF_FFFF_FFFF, 0x7FF8_0000_0000_0000, 0x7FF8_0000_0000_0001,
         0x7FFF_FFFF_FFFF_FFFF]
SPECIAL = [size | sign for size in SIZES for sign in (0, SIGN)]


def number(draw):
    """A pattern: special, any at all, or a small number of either sign."""
    kind = draw.randrange(3)
    if kind == 0:
        return draw.choice(SPECIAL)
    return draw.getrandbits(64) if kind == 1 else 0x3FF0_0000_0000_0000 + draw.randrange(4) | draw.choice((0, SIGN))


def tangent(draw):
    return [number(draw) for _ in range(7)]


def alike(draw, first):
    """A tangent that has another's numbers but from one place on."""
    at = draw.randrange(8)
    return first[:at] + [number(draw) for _ in range(7 - at)]


def tangents(draw, count):
    """Tangents of which many share their first numbers, and some all of them."""
    found = [tangent(draw) for _ in range(min(count, 3))]
    while len(found) < count:
        found.append(tangent(draw) if draw.randrange(4) == 0 else alike(draw, draw.choice(found)))
    return found


def pairs(seed, count):
    """Pairs of tangents: every two special numbers in the first place, and drawn ones."""
    draw = random.Random(seed)
    rest = tangent(draw)[:6]
    found = [([x, *rest], [y, *rest]) for x in SPECIAL for y in SPECIAL]
    for _ in range(count):
        first = tangent(draw)
        found.append((first, alike(draw, first)))
    return found


def lists(seed, count):
    """Flat lists: of drawn lengths, among them the empty one and the longest, and lists that are refused."""
    draw = random.Random(seed)
    sizes = [0, 1, 2, 3, 4, 5, 7, 8, 9, 1023, 1024] + [draw.randrange(65) for _ in range(count)]
    for size in sizes:
        yield [x for t in tangents(draw, size) for x in t]
    for size in (1, 6, 8, 13, 7167, 7169, 7174, 7175, 7182, 8000, 14336):
        yield [number(draw) for _ in range(size)]
