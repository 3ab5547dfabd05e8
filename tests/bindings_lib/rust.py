"""The Rust crate: every safe function has the numbers of the bare call, at both widths."""
import random
import tempfile

from .common import bits, call_c, packed, run, rust_program, same
from sim3 import raw
from sim3.widths import WIDTHS

# The arguments of a record for all_functions.rs, with the count of their numbers.
ARGUMENTS = {"tau": 7, "values": 10, "x": 8, "y": 8, "jl": 9, "jl_inv": 9, "j": 31, "p": 3, "pts": 12, "up": 1,
             "down": 1, "ds": 1, "sigma": 1, "z": 1}


def case(source):
    return {name: [source.uniform(0.1, 1.5) for _ in range(count)] for name, count in ARGUMENTS.items()}


def bare_call(name, given, width):
    """The bytes that the bare call writes."""
    data = b"".join(packed(given[argument], width)
                    for argument, kind in raw.FUNCTIONS[name].takes if kind != raw.FRAMES)
    status, out = call_c(name, data, width=width)
    same(status, 0, f"sim3_{name}{width.ending}")
    return out


def same_as_bare_calls():
    source = random.Random(11)
    cases = [case(source) for _ in range(50)]
    for width in WIDTHS:
        with tempfile.TemporaryDirectory() as work:
            program = rust_program("tests/bindings_lib/all_functions.rs", work, width)
            found = run([program], b"".join(packed(numbers, width) for given in cases for numbers in given.values()))
        at = 0
        for given in cases:
            for name in raw.FUNCTIONS:
                expected = bare_call(name, given, width)
                same(bits(found[at:at + len(expected)], width), bits(expected, width), f"sim3::{name}, {width.word}s")
                at += len(expected)
        same(at, len(found), f"bytes of all_functions.rs, {width.word}s")


TESTS = [same_as_bare_calls]
