"""Numbers of both widths as text, as bits, and their distance in units in the last place."""
import re
import struct
from fractions import Fraction

DECIMAL = re.compile(r"[+-]?([0-9]+\.?[0-9]*|\.[0-9]+)([eE][+-]?[0-9]+)?")
HEXADECIMAL = re.compile(
    r"([+-]?)0[xX](([0-9a-fA-F]+)\.?([0-9a-fA-F]*)|\.([0-9a-fA-F]+))([pP]([+-]?[0-9]+))?")
PATTERN = re.compile(r"(bits|nan):([0-9a-fA-F]+)")
NAMED = {"inf": "inf", "+inf": "inf", "-inf": "-inf", "nan": "nan"}
INFINITIES = (float("inf"), float("-inf"))


class BadNumber(ValueError):
    """A word that is no number; the text says why."""


def quoted(word):
    """A word in quotes, escaped and shortened for a message."""
    return ascii(word if len(word) <= 40 else word[:37] + "...")


def exact_value(word):
    """The value of a decimal or hexadecimal word, without rounding."""
    found = HEXADECIMAL.fullmatch(word)
    if not found:
        return Fraction(word)
    sign, _, whole, behind, alone, _, power = found.groups()
    digits = (whole or "") + (behind or alone or "")
    power = int(power or 0) - 4 * len(behind or alone or "")
    return int(sign + "1") * int(digits, 16) * Fraction(2) ** power


class Width:
    """A width of number: its names, struct's codes, and what its bit patterns are."""

    def __init__(self, name, code, bits_code, nan, infinity):
        self.name, self.code, self.bits_code = name, code, bits_code
        self.nan, self.infinity = nan, infinity  # how every NaN of an answer is written; the bits of inf
        self.number, self.pattern = struct.Struct("<" + code), struct.Struct("<" + bits_code)
        self.size = self.number.size
        self.digits = 2 * self.size
        self.magnitude = (1 << 8 * self.size - 1) - 1  # all bits but the sign
        self.expected = ("a decimal (1.5, -2e-3), a hexadecimal (0x1.8p3), inf, -inf, nan, "
                         f"or {self.digits} digits of bits (bits:{self.to_bits(1.0):0{self.digits}x})")

    def from_bits(self, bits):
        """The number as Python has it; of a single NaN the bits may be lost."""
        return self.number.unpack(self.pattern.pack(bits))[0]

    def to_bits(self, x):
        """The bits of a double, rounded to this width; beyond the largest number those of an infinity."""
        try:
            return self.pattern.unpack(self.number.pack(x))[0]
        except OverflowError:
            return self.infinity | (self.magnitude + 1 if x < 0 else 0)

    def bits_of_doubles(self, numbers):
        """The bits of the numbers whose nearest doubles are these; None if one of them must be read by itself."""
        return None if any(x in INFINITIES for x in numbers) else self.all_bits(numbers)

    def all_bits(self, numbers):
        """The bits of several numbers that are finite at this width."""
        packed = struct.pack(f"<{len(numbers)}{self.code}", *numbers)
        return list(struct.unpack(f"<{len(numbers)}{self.bits_code}", packed))

    def is_nan(self, bits):
        return bits & self.magnitude > self.infinity

    def read(self, word):
        """The bits of the number that a word names, rounded once to nearest; else BadNumber."""
        if DECIMAL.fullmatch(word):
            return self.rounded(float(word), word)
        if HEXADECIMAL.fullmatch(word):
            try:
                return self.rounded(float.fromhex(word), word)
            except OverflowError:
                return self.rounded(float("inf"), word)
        if word in NAMED:
            return self.to_bits(float(NAMED[word]))
        return self.read_pattern(word)

    def read_pattern(self, word):
        """bits:H is any number, nan:H a NaN, by its hexadecimal digits."""
        found = PATTERN.fullmatch(word)
        if not found or len(found[2]) != self.digits:
            raise BadNumber(f"{quoted(word)} is not a number; expected {self.expected}")
        bits = int(found[2], 16)
        if found[1] == "nan" and not self.is_nan(bits):
            raise BadNumber(f"{word} is not a NaN; expected bits:{found[2]} for this number")
        return bits

    def rounded(self, x, word):
        """The bits of a word's number from its nearest double x. A number that overflows is an error, not an
        infinity."""
        bits = self.resolve_tie(self.to_bits(x), x, word)
        if self.is_infinite(bits):
            raise BadNumber(f"{quoted(word)} is beyond the largest {self.name}; expected a finite number, "
                            "or inf where an infinity is meant")
        return bits

    def resolve_tie(self, bits, x, word):
        """The bits of a word's number: at this width those of its nearest double x."""
        return bits

    def is_infinite(self, bits):
        return bits & self.magnitude == self.infinity

    def text(self, bits):
        """The shortest decimal that reads back as the same bits; a NaN with bits of its own shows them."""
        if self.is_nan(bits):
            return "nan" if bits == self.nan else f"nan:{bits:0{self.digits}x}"
        return self.decimal(bits)

    def decimal(self, bits):
        return repr(self.from_bits(bits))

    def ordinal(self, bits):
        """The number's rank among all numbers of the width; 0 for both zeros."""
        return bits if bits <= self.magnitude else -(bits & self.magnitude)

    def ulps(self, old, new):
        """How many steps from number to next number lie between two bit patterns; None with a NaN."""
        if self.is_nan(old) or self.is_nan(new):
            return None
        return abs(self.ordinal(old) - self.ordinal(new))


class Single(Width):
    """Singles. A word's nearest double is midway between two of them if its last bits are MIDWAY, and possibly if it is
    below the least normal single; then the exact value of the word decides."""

    LAST_BITS, MIDWAY = 0x1FFFFFFF, 0x10000000
    LEAST_NORMAL, LARGEST = 2.0 ** -126, 2.0 ** 128 - 2.0 ** 104
    THREE, THREE_BITS = struct.Struct("<3f"), struct.Struct("<3I")
    FRACTION = (1 << 23) - 1  # the bits behind the point
    SHORTER = [f"%.{digits}g" for digits in range(8, 0, -1)]

    def bits_of_doubles(self, numbers):
        return self.all_bits(numbers) if all(map(self.is_unambiguous, numbers)) else None

    def is_unambiguous(self, x):
        """Whether a word that has x as its nearest double has the same nearest single as x."""
        normal = self.LEAST_NORMAL <= abs(x) <= self.LARGEST
        return normal and DOUBLE.to_bits(x) & self.LAST_BITS != self.MIDWAY or x == 0

    def resolve_tie(self, bits, x, word):
        """Where x is midway between two singles, the exact value of the word decides."""
        if x in INFINITIES or self.is_unambiguous(x):
            return bits
        here = self.exact(bits)
        if here == x:
            return bits
        other = bits + (1 if abs(here) < abs(x) and not self.is_infinite(bits) else -1)
        if here + self.exact(other) != 2 * Fraction(x) or exact_value(word) == Fraction(x):
            return bits
        further = abs(exact_value(word)) > abs(Fraction(x))
        return max(bits, other) if further else min(bits, other)

    def exact(self, bits):
        """The single as a fraction; for an infinity, the number one step beyond the largest."""
        if not self.is_infinite(bits):
            return Fraction(self.from_bits(bits))
        return Fraction(2) ** 128 * (1 if bits <= self.magnitude else -1)

    def decimal(self, bits):
        """A single's shortest decimal is shorter than that of the same number as a double."""
        x = self.from_bits(bits)
        if x == 0 or x in INFINITIES:
            return repr(x)
        low, high = self.rounding_interval(bits & self.magnitude)
        if bits & self.FRACTION:
            return self.shortest(x, bits, low, high)
        # a power of two has less room below than above, so a longer decimal may not do where a shorter one does
        for digits in range(1, 10):
            near = float("%.*g" % (digits, x))
            if self.reads_back(abs(near), low, high, bits, near):
                return repr(near)
        raise AssertionError(f"nine digits do not read back as {bits:08x}")

    def shortest(self, x, bits, low, high):
        """The shortest decimal that reads back: nine digits always do, and fewer digits are never nearer."""
        best = float("%.9g" % x)
        for form in self.SHORTER:
            near = float(form % x)
            if not (low < near < high or -high < near < -low or self.reads_back(abs(near), low, high, bits, near)):
                return repr(best)
            best = near
        return repr(best)

    def reads_back(self, near, low, high, bits, number):
        """Whether a decimal with the nearest double `number` reads back as these bits. Rounding to doubles is monotone,
        so the decimal itself is read only if that double is a bound of the interval."""
        return low < near < high or near in (low, high) and bits == self.read(repr(number))

    def rounding_interval(self, magnitude):
        """The doubles midway between a positive single and its neighbours, both exact; 2^128 follows the largest."""
        below, here, above = self.THREE.unpack(self.THREE_BITS.pack(magnitude - 1, magnitude, magnitude + 1))
        return (below + here) / 2, (here + min(above, 2.0 ** 128)) / 2


DOUBLE = Width("double", "d", "Q", 0x7FF8000000000000, 0x7FF0000000000000)
SINGLE = Single("single", "f", "I", 0x7FC00000, 0x7F800000)
WIDTHS = {width.code: width for width in (DOUBLE, SINGLE)}  # by struct's code of a number
