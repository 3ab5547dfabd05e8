"""The order of tangents once more, from the standard's text: IEEE 754-2019, 5.10, on 64-bit patterns as whole
numbers."""
import functools
import math
import struct

SIGN, QUIET, DIGITS = 1 << 63, 1 << 51, (1 << 52) - 1


def value(b):
    return struct.unpack("<d", struct.pack("<Q", b))[0]


def nans_ordered(x, y):
    """d 3: by sign; then a signaling NaN below a quiet one, and by payload; reversed if both are negative."""
    if (x & SIGN) != (y & SIGN):
        return bool(x & SIGN)
    first, second = (y, x) if x & SIGN else (x, y)
    if (first & QUIET) != (second & QUIET):
        return not first & QUIET
    return first & (QUIET - 1) <= second & (QUIET - 1)


def total_order(x, y):
    """totalOrder(x, y)."""
    a, b = value(x), value(y)
    if math.isnan(a) and math.isnan(b):
        return nans_ordered(x, y)
    if math.isnan(a):
        return bool(x & SIGN)
    if math.isnan(b):
        return not y & SIGN
    if a != b:
        return a < b
    return bool(x & SIGN) or not y & SIGN  # equal values: two zeros, or the same bits


def compare(a, b):
    """-1, 0 or 1: the first difference decides."""
    for x, y in zip(a, b, strict=True):
        if x != y:
            return -1 if total_order(x, y) else 1
    return 0


def sort(words):
    """The refusal's number or 0, and what the list then holds."""
    if len(words) > 7168 or len(words) % 7:
        return 5, list(words)
    tangents = [tuple(words[i:i + 7]) for i in range(0, len(words), 7)]
    return 0, [x for t in sorted(tangents, key=functools.cmp_to_key(compare)) for x in t]
