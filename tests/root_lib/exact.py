"""The expected answer at a double: from its pattern, in integers, by math.isqrt."""
import math
import struct

SIGN = 1 << 63
INFINITY = 0x7FF << 52
MINUS_ONE = (1 << 64) - 1


def bits(x):
    return struct.unpack("<Q", struct.pack("<d", x))[0]


def value(b):
    return struct.unpack("<d", struct.pack("<Q", b))[0]


def units(b):
    """The double with the pattern b, which is finite and above 0, as a whole number of 2^-1074."""
    field, digits = b >> 52, b & ((1 << 52) - 1)
    return digits if field == 0 else (1 << 52 | digits) << (field - 1)


def scaled(n):
    """m and s with n / 2^1074 = m * 4^s and 2^104 <= m < 2^106."""
    s = (n.bit_length() - 1 - 1074 - 104) // 2
    shift = -1074 - 2 * s
    m = n << shift if shift >= 0 else n >> -shift
    if (m >> shift if shift >= 0 else m << -shift) != n or not 1 << 104 <= m < 1 << 106:
        raise ValueError(f"{n} units are not scaled")
    return m, s


def expected(b):
    """The refusal's number or 0, the whole root, the remainder, the exponent (as a 64-bit pattern) and the nearest
    double's pattern."""
    if b & ~SIGN > INFINITY:
        return (8, 0, 0, 0, 0)
    if b > SIGN:
        return (1, 0, 0, 0, 0)
    if b == INFINITY:
        return (8, 0, 0, 0, 0)
    if b in (0, SIGN):
        return (0, 0, 0, 0, b)
    m, s = scaled(units(b))
    r = math.isqrt(m)
    remainder = m - r * r
    nearest = bits(math.ldexp(r if remainder <= r else r + 1, s))
    if nearest != bits(math.sqrt(value(b))):
        raise ValueError(f"at {b:016x} the machine's sqrt is not the nearest double")
    return (0, r, remainder, s & MINUS_ONE, nearest)
