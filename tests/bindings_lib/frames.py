"""Frames at the C functions and in each language, against the request's own rules: which products are refused, and
which frames a pose has that is given. The numbers of an answered call are those of the same call with all frames 0,
which the other tests hold against the Rust's.
"""
import itertools
import random
import struct
import tempfile

import sim3
from .common import bits, call_c, packed, run, rust_program, same
from sim3 import raw
from sim3.widths import WIDTHS

# Frames that agree in one byte and differ in the other, neighbours, and the ends.
NUMBERS = (0, 1, 255, 256, 257, 511, 0x8000, 0xFF00, 65_535)
REFUSED = 9


def expected_frames(name, x, y):
    """The frames that a function gives, or None where it refuses: x and y are from and to."""
    if name == "exp":
        return x
    if name == "inverse":
        return x[1], x[0]
    if name == "mul":
        return (y[0], x[1]) if x[0] == y[1] else None
    if name == "mul_inv":
        return (y[1], x[1]) if x[0] == y[0] else None
    return (x[0], y[0]) if x[1] == y[1] else None  # inv_mul


NAMES = ("exp", "mul", "inverse", "mul_inv", "inv_mul")


def cases():
    """The frames of two poses: each of NUMBERS in each place, and any frames, mostly some that meet."""
    found = list(itertools.product(NUMBERS, repeat=4))
    source = random.Random(17)
    for _ in range(2000):
        few = [source.randrange(65_536) for _ in range(2)]
        found.append(tuple(source.choice(few) for _ in range(4)))
    return [(case[:2], case[2:]) for case in found]


def numbers(name, source, width):
    """Ordinary numbers for a function's arguments."""
    count = sum(1 if kind == raw.NUMBER else raw.KINDS[kind][0]
                for _, kind in raw.FUNCTIONS[name].takes if kind != raw.FRAMES)
    return packed([source.uniform(0.1, 1.5) for _ in range(count)], width)


def at_bare_calls():
    source, answers, refusals = random.Random(18), 0, 0
    for name, width in itertools.product(NAMES, WIDTHS):
        data, what = numbers(name, source, width), f"sim3_{name}{width.ending}"
        status, plain = call_c(name, data, width=width)
        same(status, 0, f"{what} with all frames 0")
        for x, y in cases():
            expected = expected_frames(name, x, y)
            status, out = call_c(name, data, [x, y], width)
            same(status, REFUSED if expected is None else 0, f"{what}, frames {x} and {y}")
            if expected is not None:
                same(bits(out, width), bits(plain[:8 * width.size] + packed(expected, width), width),
                     f"{what}, frames {x} and {y}")
            answers, refusals = answers + (expected is not None), refusals + (expected is None)
    assert answers > 20_000 and refusals > 20_000, f"{answers} answered and {refusals} refused"


# ---- the package

POSE = [1.0, 0.5, 0.25, 0.125, 1.0, 2.0, 3.0, 0.5]


def of_package(name, x, y):
    """The frames that the package's function gives, or None where it refuses."""
    first, second = sim3.Pose(POSE, *x), sim3.Pose(POSE, *y)
    try:
        if name == "exp":
            found = sim3.exp(POSE[:7], *x)
        else:
            found = sim3.inverse(first) if name == "inverse" else getattr(sim3, name)(first, second)
    except sim3.Refusal as refusal:
        same(refusal.number, REFUSED, f"number of {refusal}")
        return None
    return found.from_, found.to


def in_python():
    for x, y in random.Random(19).sample(cases(), 1500):
        for name in NAMES:
            same(of_package(name, x, y), expected_frames(name, x, y), f"sim3.{name}, frames {x} and {y}")
        renormalized = sim3.renormalize(sim3.Pose(POSE, *x))
        same((renormalized.from_, renormalized.to), x, "frames after sim3.renormalize")


def in_words():
    """Which frames did not meet, and what to do."""
    x, y = sim3.Pose(POSE, 3, 7), sim3.Pose(POSE, 5, 9)
    for function, parts in ((sim3.mul, ("x starts from frame 3, and y goes to frame 9", "the other way round")),
                            (sim3.mul_inv, ("x starts from frame 3, and y from frame 5", "start from it")),
                            (sim3.inv_mul, ("x goes to frame 7, and y to frame 9", "go to it"))):
        try:
            answer = function(x, y)
        except sim3.Refusal as refusal:
            for part in (f"sim3.{function.__name__}: refusal 9: ", *parts):
                assert part in str(refusal), f"no {part!r} in {refusal}"
        else:
            raise AssertionError(f"sim3.{function.__name__} answered {answer}")


# ---- the Rust crate

def in_rust():
    """frames.rs writes for each function 0 and the frames, or the refusal's number and zeros."""
    inputs = cases()
    with tempfile.TemporaryDirectory() as work:
        program = rust_program("tests/bindings_lib/frames.rs", work)
        output = run([program], b"".join(struct.pack("<4H", *x, *y) for x, y in inputs))
    answers = struct.iter_unpack("<3H", output)
    same(len(output), 6 * len(inputs) * (len(NAMES) + 1), "bytes of frames.rs")
    for x, y in inputs:
        for name in (*NAMES, "renormalize"):
            expected = x if name == "renormalize" else expected_frames(name, x, y)
            same(next(answers), (REFUSED, 0, 0) if expected is None else (0, *expected),
                 f"sim3::{name}, frames {x} and {y}")


TESTS = [at_bare_calls, in_python, in_words, in_rust]
