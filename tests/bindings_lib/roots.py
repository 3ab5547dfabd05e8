"""The square root with its remainder, from each language: its numbers against exact integers, its refusals, and √z of
the host's values computed by it.

A host may compute √z of the ten values by sim3_root: Exp on such values has the bits of Exp on the machine's root.
TESTS compare it on some tangents, `compare_languages` on any number of them.
"""
import random
import struct
import tempfile

import sim3
from .common import BITS, bits, compiler, packed, run, rust_program, same
from root_lib import samples
from root_lib.exact import expected, value
from sim3 import host, raw
from sim3.widths import DOUBLE

FEW, FEWER = 20_000, 2_000  # tangents for C and Rust, and for Python, which is slower
ODD = [0.0, -0.0, 5e-324, 2.0 ** -537, 1e-154, 1.0, 1e154, 1.3407807929942596e154, 1e200, float("inf"), float("nan")]


# ---- the parts of the root

def patterns():
    """Ends of every binade, subnormals, neighbours of squares, and any doubles at all."""
    return samples.drawn("bindings", binade=0, subnormal=1, square=300, other=1000)


def lists(counts=(2, 1, 1)):
    """What sim3_root writes to, of these counts, with numbers that no answer has."""
    kinds = [kind for kind, _ in raw.ROOT_WRITES.values()]
    return [(kind * count).from_buffer_copy(struct.pack("<Q", BITS[DOUBLE][-1]) * count)
            for kind, count in zip(kinds, counts)]


def bare(z):
    """What the bare call returns and writes, as five words."""
    written = lists()
    before = b"".join(map(bytes, written))
    status = raw.call("root", z, *written)
    words = b"".join(map(bytes, written))
    if status:
        same(words, before, f"sim3_root({z!r}): refused, but a number was written")
        return status, 0, 0, 0, 0
    return (0, *struct.unpack("<4Q", words))


def of_package(z):
    """The same words by the package."""
    try:
        found = sim3.root(z)
    except sim3.Refusal as refusal:
        return refusal.number, 0, 0, 0, 0
    return (0, found.root, found.remainder, *struct.unpack("<2Q", struct.pack("<qd", found.exponent, found.nearest)))


def parts_in_python():
    for b in patterns():
        same(bare(value(b)), expected(b), f"sim3_root at {b:016x}")
        same(of_package(value(b)), expected(b), f"sim3.root at {b:016x}")


def c_program(work):
    run([compiler("cc", "CC"), "-std=c99", "-O2", "-Wall", "-Wextra", "-Werror", "-Iinclude", "-Ibindings/c", "-o",
         f"{work}/roots",
         "tests/bindings_lib/roots.c", "target/bindings/libsim3.a", "-lm"])
    return f"{work}/roots"


def rust(work):
    return rust_program("tests/bindings_lib/roots.rs", work)


def parts_by(program):
    inputs = patterns()
    output = run([program, "parts"], struct.pack(f"<{len(inputs)}Q", *inputs))
    same(len(output), 40 * len(inputs), "bytes of the parts")
    for b, words in zip(inputs, struct.iter_unpack("<5Q", output)):
        same(words, expected(b), f"the root at {b:016x}")


def parts_in_c():
    with tempfile.TemporaryDirectory() as work:
        parts_by(c_program(work))


def parts_in_rust():
    with tempfile.TemporaryDirectory() as work:
        parts_by(rust(work))


# ---- refusals

def lengths():
    """Every other length of each list is refused by 100, after 1 and 8, and nothing is written."""
    for place in range(3):
        for count in (0, 1, 2, 3, 1000):
            counts = [2, 1, 1]
            counts[place] = count
            number = 0 if counts == [2, 1, 1] else 100
            for z, refusal in ((2.0, number), (-0.0, number), (-1.0, 1), (float("-inf"), 1), (float("inf"), 8),
                               (float("nan"), 8)):
                written = lists(counts)
                before = list(map(bytes, written))
                same(raw.call("root", z, *written), refusal, f"sim3_root({z!r}) with lists of {counts}")
                assert not refusal or list(map(bytes, written)) == before, (
                    f"sim3_root({z!r}) with lists of {counts}: refused, but a number was written")


def in_words():
    for z, number, part in ((-1.0, 1, "below zero"), (float("-inf"), 1, "below zero"), (float("inf"), 8, "z is inf"),
                            (float("nan"), 8, "z is nan")):
        try:
            answer = sim3.root(z)
        except sim3.Refusal as refusal:
            same(refusal.number, number, f"number of sim3.root({z!r})")
            assert f"sim3.root: refusal {number}" in str(refusal) and part in str(refusal), str(refusal)
        else:
            raise AssertionError(f"sim3.root({z!r}) answered {answer}")
    for wrong in ("1", None, [1.0]):
        try:
            answer = sim3.root(wrong)
        except TypeError as error:
            assert "sim3.root: z is" in str(error), str(error)
        else:
            raise AssertionError(f"sim3.root({wrong!r}) answered {answer}")
    same(sim3.root(2), (6369051672525772, 7192236498376048, -52, 2.0 ** 0.5), "sim3.root(2)")


# ---- √z of the ten values

def tangents(count):
    """Tangents of ordinary sizes, of every size from z that underflows to z that overflows, and of odd numbers."""
    draw = random.Random("tangents")
    for i in range(count):
        size = (1.0, 2.0 ** draw.uniform(-30, 3), 2.0 ** draw.uniform(-540, 512))[i % 3]
        phi = [draw.choice(ODD) for _ in range(3)] if i % 50 == 0 else [draw.gauss(0, size) for _ in range(3)]
        sigma = draw.choice((0.0, -0.0)) if i % 10 == 0 else draw.gauss(0, 1)
        yield [*phi, *(draw.gauss(0, 1) for _ in range(3)), sigma]


def values_by(program, count):
    run([program, "values"], b"".join(map(packed, tangents(count))))


def values_in_c(count=FEW):
    with tempfile.TemporaryDirectory() as work:
        values_by(c_program(work), count)


def values_in_rust(count=FEW):
    with tempfile.TemporaryDirectory() as work:
        values_by(rust(work), count)


def values_in_python(count=FEWER):
    for tau in tangents(count):
        by_machine, by_root = host.tangent_values(tau), host.tangent_values(tau, root=sim3.nearest_root)
        same(bits(packed(by_root)), bits(packed(by_machine)), f"values of {tau}")
        found, wanted = (sim3.exp(tau, 0, 0, values).numbers for values in (by_root, by_machine))
        same(bits(found.tobytes()), bits(wanted.tobytes()), f"Exp of {tau}")


def nearest_of_refused():
    """What root refuses is answered as by the machine's root."""
    for z in (-1.0, -5e-324, float("-inf"), float("inf"), float("nan"), -0.0):
        same(bits(packed([sim3.nearest_root(z)])), bits(packed([host.root(z)])), f"sim3.nearest_root({z!r})")


def compare_languages(count):
    """Compares the three languages on so many tangents, and says how many z there were."""
    for test in (values_in_c, values_in_rust, values_in_python):
        test(count)
    found = {host.norm_sq(tau[:3]) for tau in tangents(count)}
    return sum(0 < z < float("inf") for z in found)


TESTS = [parts_in_python, parts_in_c, parts_in_rust, lengths, in_words, values_in_c, values_in_rust, values_in_python,
         nearest_of_refused]
