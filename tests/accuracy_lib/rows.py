"""The rows of docs/ACCURACY.md: a box, how its cases are drawn, what the engine answers and what is exact."""
import ctypes
import math
import random
import struct

from jobs_lib.layout import ANSWER, JOB

from . import fixed

SINGLE = struct.Struct("<f")
# The limits of the series' arms in Δ, as bit patterns: crates/arms/specs/Limits.antt.
LIMITS = {64: struct.unpack(">4d", bytes.fromhex("3f0c70e59cfc9f1f3fa59742aa36710d3fd0e8139c96fc793fffb1ffbc2a9c8c")),
          32: struct.unpack(">4f", bytes.fromhex("3a7ce1583e03ba203f205df34017c496"))}
ARMS = ("short", "mid", "upper", "series")
NAMES = ("v0", "v1", "v2", "w0", "w1", "w2", "dv1", "dv2", "chi_delta")
# The exponents of the bounds, which numbers.stated compares: short_errors .. series_errors and chi_errors of
# crates/accuracy/specs/Series.antt.
COEFFICIENTS = {
    64: {"short": (-51, -50, -51, -52, -52, -54, -53, -55, -63),
         "mid": (-51, -49, -51, -52, -51, -53, -52, -55, -53),
         "upper": (-50, -49, -50, -52, -50, -52, -52, -54, -50),
         "series": (-49, -47, -48, -51, -49, -51, -50, -52, -45)},
    32: {"short": (-22, -21, -23, -23, -23, -25, -24, -27, -30),
         "mid": (-22, -21, -22, -23, -22, -24, -24, -26, -22),
         "upper": (-21, -20, -21, -23, -22, -23, -23, -25, -19),
         "series": (-19, -18, -20, -22, -21, -22, -21, -24, -15)}}
# The same of half_turn_errors, half_turn_chi, turn_errors and turn_chi of crates/accuracy/specs/ClosedArm.antt.
CLOSED = {64: {"half_turn": (-49, -46, -47, -48, -45, -45, -47, -47, -44),
               "turn": (-49, -42, -45, -44, -40, -42, -43, -45, -41)},
          32: {"half_turn": (-20, -17, -18, -19, -16, -17, -18, -19, -15),
               "turn": (-20, -14, -16, -15, -11, -13, -14, -16, -12)}}
BOXES = {"half_turn": (1.0, 10.0), "turn": (4.0, 40.0)}  # the greatest |σ| and z


def rounded(width, x):
    return x if width == 64 else SINGLE.unpack(SINGLE.pack(x))[0]


class Draw:
    """Numbers of a width: plain ones, ones near the ends of a box, and small ones."""

    def __init__(self, width, seed):
        self.width, self.random = width, random.Random(f"accuracy {width} {seed}")

    def within(self, most):
        kind = self.random.random()
        if kind < 0.5:
            x = self.random.uniform(-most, most)
        elif kind < 0.8:
            x = self.random.choice((-1, 1)) * most * (1 - 2.0 ** -self.random.randrange(1, 20) * self.random.random())
        else:
            x = self.random.choice((-1, 1)) * most * 2.0 ** -self.random.randrange(1, 30) * self.random.random()
        x = rounded(self.width, x)
        return max(-most, min(most, x))

    def vector(self, most, count=3):
        return [self.within(most) for _ in range(count)]

    def unit(self):
        """A quaternion of length 1, but for its rounding."""
        q = [self.random.gauss(0, 1) for _ in range(4)]
        length = math.sqrt(sum(c * c for c in q))
        return [rounded(self.width, c / length) for c in q]

    def quaternion(self):
        return self.unit() if self.random.random() < 0.5 else self.vector(1.0, 4)


def record(mark, *numbers):
    return mark + JOB[mark].numbers.pack(*numbers)


def mark_of(width, name):
    return (name if width == 64 else name.lower()).encode()


def answers(data, mark, count):
    """The numbers of each answer; the job has records of this mark alone."""
    layout, at, found = ANSWER[mark], 0, []
    for _ in range(count):
        if data[at:at + 2] != mark:
            raise ValueError(f"the answer at byte {at} is {data[at:at + 2]!r}, not {mark!r}")
        found.append(layout.numbers.unpack_from(data, at + 2))
        at += 2 + layout.numbers.size
    return found


class Worst:
    """The worst error of a row, in units of 2^-280."""

    def __init__(self):
        self.error, self.cases = 0, 0

    def add(self, actual, expected):
        self.cases += 1
        for x, y in zip(actual, expected, strict=True):
            if not math.isfinite(x):
                raise ValueError(f"the answer {x!r} is not finite")
            self.error = max(self.error, abs(fixed.of(x) - y))


class Row:
    """A row: its statement, its width, the exponent of its bound, and the worst error of its cases."""

    def __init__(self, statement, width, exponent, what):
        self.statement, self.width, self.exponent, self.what = statement, width, exponent, what
        self.worst = Worst()

    def holds(self):
        bound = fixed.ONE << self.exponent if self.exponent >= 0 else fixed.ONE >> -self.exponent
        return self.worst.error <= bound


def fixes(numbers):
    return [fixed.of(x) for x in numbers]


def near_unit(width, q):
    """Whether |q|² is within 2^-50 of 1, at singles 2^-21."""
    square = sum(fixed.mul(c, c) for c in fixes(q))
    return abs(square - fixed.ONE) <= fixed.ONE >> (50 if width == 64 else 21)


def action(run, width, count, box, field, exponent):
    """s R p + t, by the formula's R, and by the true rotation where q has length 1 but for its rounding"""
    row = Row(f"ActionTheorem.{field}", width, exponent, "a moved coordinate")
    true = Row(f"RotationTheorem.{field}", width, exponent, "the same, true rotation")
    draw, mark = Draw(width, field), mark_of(width, "AC")
    point, scale, shift = box
    cases = [(draw.quaternion(), draw.vector(shift), abs(draw.within(scale)), draw.vector(point)) for _ in range(count)]
    data = run(b"".join(record(mark, *q, *t, 0.0, 1, 2, s, *p) for q, t, s, p in cases))
    for (q, t, s, p), actual in zip(cases, answers(data, mark, count), strict=True):
        row.worst.add(actual, fixed.moved(fixes(q), fixes(t), fixed.of(s), fixes(p)))
        if near_unit(width, q):
            true.worst.add(actual, fixed.moved(fixes(q), fixes(t), fixed.of(s), fixes(p), fixed.truly_rotated))
    return [row, true]


def many(library, width, count, box, field, exponent):
    """s R p + t by the matrix s R of act_many, which the job has no mark for: by the library for C."""
    row = Row(f"ManyPointsTheorem.{field}", width, exponent, "a coordinate moved by act_many")
    number = ctypes.c_double if width == 64 else ctypes.c_float
    act_many = getattr(ctypes.CDLL(library), "sim3_act_many" if width == 64 else "sim3_act_many_f32")
    size, out = ctypes.c_size_t, (number * 3)()
    draw, (point, scale, shift) = Draw(width, field), box
    for _ in range(count):
        q, t, s, p = draw.quaternion(), draw.vector(shift), abs(draw.within(scale)), draw.vector(point)
        refusal = act_many((number * 8)(*q, *t, 0.0), size(8), number(s), (number * 3)(*p), size(3), out, size(3))
        if refusal:
            raise ValueError(f"sim3_act_many returned {refusal}")
        row.worst.add(out, fixed.moved(fixes(q), fixes(t), fixed.of(s), fixes(p)))
    return [row]


def product(run, width, count, exponent):
    """The quaternion of a product."""
    field = "doubles" if width == 64 else "singles"
    row = Row(f"QuaternionTheorem.product-{field}", width, exponent, "a product's quaternion")
    draw, mark = Draw(width, "product"), mark_of(width, "MU")
    cases = [(draw.quaternion(), draw.quaternion()) for _ in range(count)]
    data = run(b"".join(record(mark, *p, 0, 0, 0, 0, 1, 2, *q, 0, 0, 0, 0, 3, 1, 1.0) for p, q in cases))
    for (p, q), actual in zip(cases, answers(data, mark, count), strict=True):
        row.worst.add(actual[:4], fixed.hamilton(fixes(p), fixes(q)))
    return [row]


def inverse(run, width, count, exponent):
    """The translation of an inverse."""
    field = "doubles" if width == 64 else "singles"
    row = Row(f"QuaternionTheorem.inverse-{field}", width, exponent, "an inverse's translation")
    true = Row(f"RotationTheorem.inverse-{field}", width, exponent, "the same, true rotation")
    draw, mark = Draw(width, "inverse"), mark_of(width, "IN")
    cases = [(draw.quaternion(), draw.vector(2.0 ** 20), abs(draw.within(16.0))) for _ in range(count)]
    data = run(b"".join(record(mark, *q, *t, 0.0, 1, 2, s) for q, t, s in cases))
    for (q, t, s), actual in zip(cases, answers(data, mark, count), strict=True):
        w, *u = fixes(q)
        conjugate = [w, *(-c for c in u)]
        for which, rotate in ((row, fixed.rotated), (true, fixed.truly_rotated)):
            if which is row or near_unit(width, q):
                expected = fixed.moved(conjugate, [0, 0, 0], fixed.of(s), fixes(t), rotate)
                which.worst.add(actual[4:7], [-c for c in expected])
    return [row, true]


def renormalized(run, width, count, exponent):
    """The Newton step, by a running join that is renormalised at its first product, with the identity."""
    row = Row("QuaternionTheorem.renormalized-doubles", width, exponent, "a renormalised quaternion")
    draw, rn_size, size = Draw(width, "newton"), 2 + ANSWER[b"RN"].numbers.size, 2 + ANSWER[b"CH"].numbers.size
    rest = [0.0] * 4 + [1, 1, 1.0]  # translation and sigma, frames, up
    for _ in range(max(1, count // 50)):  # a running join begins only once in a job
        q = draw.quaternion()
        data = run(record(b"RN", 1) + record(b"CH", *q, *rest) + record(b"CH", 1.0, 0.0, 0.0, 0.0, *rest))
        found = ANSWER[b"CH"].numbers.unpack_from(data, rn_size + size + 2)
        row.worst.add(found[:4], fixed.newton(fixes(q)))
    return [row]


def coefficient_cases(draw, width, count, arm):
    """σ and z whose computed Δ is of this arm of the series."""
    high, low = LIMITS[width][arm], LIMITS[width][arm - 1] if arm else 0.0
    cases = []
    while len(cases) < count:
        delta = draw.random.uniform(low, high)
        if draw.random.random() < 0.3:
            delta = high * (1 - 2.0 ** -draw.random.randrange(4, 20))
        part = draw.random.choice((draw.random.random(), draw.random.random(), 0.0, 1.0))
        sigma = rounded(width, draw.random.choice((-1, 1)) * math.sqrt(delta * part))
        z = rounded(width, delta * (1 - part))
        square = rounded(width, sigma * sigma)
        if (sigma == 0.0 or abs(sigma) > 2.0 ** -40) and (z == 0.0 or z > 2.0 ** -60):
            if low <= rounded(width, square + z) < high:
                cases.append((sigma, z))
    return cases


def coefficients(run, width, count, arm):
    """The nine coefficients on one arm of the series."""
    name, mark = ARMS[arm], mark_of(width, "CO")
    cases = coefficient_cases(Draw(width, name), width, count, arm)
    data = run(b"".join(record(mark, sigma, z, *[0.0] * 10) for sigma, z in cases))
    rows = [Row(f"CoefficientsTheorem.{name}", width, exponent, f"{which}, {name} arm")
            for which, exponent in zip(NAMES, COEFFICIENTS[width][name], strict=True)]
    for (sigma, z), actual in zip(cases, answers(data, mark, count), strict=True):
        for row, x, y in zip(rows, actual[:9], fixed.coefficients(fixed.of(sigma), fixed.of(z)), strict=True):
            row.worst.add([x], [y])
    return rows


def value_of(width, x):
    """The float nearest to x units."""
    return rounded(width, x / fixed.ONE)


def closed(run, width, count, box):
    """The nine coefficients on the closed arm, with the function values of σ and z rounded once."""
    draw, mark = Draw(width, box), mark_of(width, "CO")
    most_sigma, most_z = BOXES[box]
    cases = []
    while len(cases) < count:
        sigma, z = draw.within(most_sigma), abs(draw.within(most_z))
        if rounded(width, rounded(width, sigma * sigma) + z) < LIMITS[width][3]:
            continue
        if (sigma == 0.0 or abs(sigma) > 2.0 ** -40) and (z == 0.0 or z > 2.0 ** -60):
            theta, (cosine, k) = fixed.root(fixed.of(z)), fixed.circle(fixed.of(z))
            sine, e = fixed.mul(k, theta), fixed.exponential(-abs(fixed.of(sigma)))
            values = (theta, sine, cosine, 2 * fixed.mul(sine, cosine), e, e - fixed.ONE)
            cases.append((sigma, z, [value_of(width, x) for x in values]))
    data = run(b"".join(record(mark, sigma, z, *values, *[0.0] * 4) for sigma, z, values in cases))
    rows = [Row(f"ClosedArmTheorem.{box}", width, exponent, f"{which}, closed arm")
            for which, exponent in zip(NAMES, CLOSED[width][box], strict=True)]
    for (sigma, z, _), actual in zip(cases, answers(data, mark, count), strict=True):
        scale = fixed.exponential(-fixed.of(max(sigma, 0.0)))
        for row, x, y in zip(rows, actual[:9], fixed.coefficients(fixed.of(sigma), fixed.of(z)), strict=True):
            row.worst.add([x], [fixed.mul(scale, y)])
    return rows


def tangents(draw, width, count, rho, limit):
    """Tangents whose computed Δ is below a limit, each with its computed |φ|² and Δ."""
    cases = []
    while len(cases) < count:
        phi, sigma = draw.vector(1.2), draw.within(1.2)
        x, y, w = (rounded(width, c * c) for c in phi)
        z = rounded(width, rounded(width, x + y) + w)
        delta = rounded(width, rounded(width, sigma * sigma) + z)
        if delta < limit and z < 1.4 and all(c == 0 or abs(c) > 2.0 ** -40 for c in [*phi, sigma]):
            cases.append((phi, draw.vector(rho), sigma, z, delta))
    return cases


def exponential(run, width, count, rho, field, exponent, rotation_exponent):
    """The translation and the quaternion below the limits, beside those at the exact |φ|²."""
    draw, mark = Draw(width, field), mark_of(width, "EX")
    row = Row(f"ExponentialTheorem.{field}", width, exponent, "an exponential's translation")
    rotation = Row("ExponentialTheorem.exponential", width, rotation_exponent, "an exponential's quaternion")
    cases = tangents(draw, width, count, rho, LIMITS[width][3])
    data = run(b"".join(record(mark, *phi, *r, sigma, *[0.0] * 10, 1, 2) for phi, r, sigma, *_ in cases))
    for (phi, r, sigma, *_), actual in zip(cases, answers(data, mark, count), strict=True):
        exact = fixes(phi)
        z = sum(fixed.mul(c, c) for c in exact)
        v = fixed.coefficients(fixed.of(sigma), z)
        row.worst.add(actual[4:7], fixed.translation(exact, fixes(r), *v[:3]))
        cosine, k = fixed.circle(z)
        rotation.worst.add(actual[:4], [cosine, *(fixed.mul(k, c) for c in exact)])
    return [row, rotation]


def running(run, count, joins, every, box, rows_of):
    """The running join against the same history in exact arithmetic, its action, that of the product of the true
    similarities, and σ against the sum; `count` histories. `rows_of` has the rows by their names in `found`."""
    most, scale, point = box
    draw = Draw(64, f"running {joins} {every} {most}")
    size, rn_size = 2 + ANSWER[b"CH"].numbers.size, 2 + ANSWER[b"RN"].numbers.size
    for _ in range(count):
        poses = [(draw.unit(), draw.vector(most), draw.within(1.0 / joins), abs(draw.within(scale)))
                 for _ in range(joins + 1)]
        data = run(record(b"RN", every) + b"".join(record(b"CH", *q, *t, sigma, 1, 1, s) for q, t, sigma, s in poses))
        actual = ANSWER[b"CH"].numbers.unpack_from(data, rn_size + joins * size + 2)
        exact, shift = fixes(poses[0][0]), fixes(poses[0][1])
        true, true_shift = exact, shift
        for number, (q, t, _, s) in enumerate(poses[1:], 1):
            s, q, t = fixed.of(s), fixes(q), fixes(t)
            shift, exact = fixed.moved(exact, shift, s, t), fixed.hamilton(exact, q)
            true_shift, true = fixed.moved(true, true_shift, s, t, fixed.truly_rotated), fixed.hamilton(true, q)
            if number % every == 0:
                exact = fixed.newton(exact)
        p, s = draw.vector(point), abs(draw.within(scale))
        moved = ANSWER[b"AC"].numbers.unpack_from(run(record(b"AC", *actual[:7], 0.0, 1, 2, s, *p)), 2)
        p, s = fixes(p), fixed.of(s)
        found = {"rotation": (actual[:4], exact), "translation": (actual[4:7], shift),
                 "sigma": (actual[7:8], [sum(fixed.of(pose[2]) for pose in poses)]),
                 "moved": (moved, fixed.moved(exact, shift, s, p)),
                 "true": (moved, fixed.moved(true, true_shift, s, p, fixed.truly_rotated))}
        for which, row in rows_of.items():
            row.worst.add(*found[which])
    return list(rows_of.values())
