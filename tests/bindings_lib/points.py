"""Lists of points in Python: any length, any buffer whose rows are x y z, a list of the caller's to be written, and
numpy's arrays where numpy is there."""
import array
import contextlib
import ctypes
import importlib.util
import inspect
import random
import sys
import types

import sim3
from .common import Skipped, same
from .python_package import fails
from sim3 import f32, raw
from sim3.widths import DOUBLE, SINGLE

X = [1.0, 0.5, 0.25, 0.125, 1.0, 2.0, 3.0, 0.5]
PIECE = 65_535
MODULES = {DOUBLE: sim3, SINGLE: f32}


def some(count, width=DOUBLE):
    source = random.Random(count)
    return array.array(width.code, [source.uniform(-9, 9) for _ in range(count)])


def in_pieces():
    """A long list has the numbers of its pieces, moved one by one; so has an empty one, and one of exactly the most."""
    for width, package in MODULES.items():
        for name in ("act_many", "act_each"):
            move = getattr(package, name)
            for count in (0, 3, PIECE - 3, PIECE, PIECE + 3, 2 * PIECE, 3 * PIECE + 27):
                pts = some(count, width)
                expected = array.array(width.code)
                for at in range(0, count, 999):
                    expected.extend(move(X, pts[at:at + 999]))
                same(move(X, pts).tobytes() == expected.tobytes(), True, f"{width.package}.{name} of {count} numbers")


def length_first():
    """A long list of a wrong length is refused before a number is written."""
    out = array.array("d", [7.0]) * (PIECE + 4)
    for pts, given in ((some(PIECE + 4), out), (some(PIECE + 3), out), (some(6), array.array("d", [7.0, 7.0, 7.0]))):
        found = fails(sim3.Refusal, ["sim3.act_many: refusal 5"], sim3.act_many, X, pts, out=given)
        same((found.number, set(given)), (5, {7.0}), f"an out after {found}")
    fails(sim3.Refusal, ["out has 65,539 numbers where pts has 65,538"], sim3.act_many, X, some(PIECE + 3), out=out)
    out.append(1.0)  # which fails while a view of the buffer exists


def shapes():
    """Rows of three, also with gaps, backwards and read-only, have the numbers of the flat list."""
    flat = some(60)
    expected = sim3.act_many(X, flat)
    rows = memoryview(flat).cast("B").cast("d", [20, 3])
    twice = array.array("d", [number for number in flat for _ in (0, 1)])
    for what, form in (("rows", rows), ("read-only rows", rows.toreadonly()), ("gaps", memoryview(twice)[::2]),
                       ("rows of C", (ctypes.c_double * 3 * 20).from_buffer(flat)),
                       ("boxes of rows", memoryview(flat).cast("B").cast("d", [4, 5, 3]))):
        same(sim3.act_many(X, form), expected, f"sim3.act_many of {what}")
    back = memoryview(array.array("d", reversed(flat)))[::-1]
    same(sim3.act_many(X, back), expected, "sim3.act_many of a list from its end")
    for wrong in ([3, 20], [60, 1], [5, 3, 4]):
        fails(TypeError, ["sim3.act_many: pts has the shape", "expected (n, 3)"], sim3.act_many, X,
              memoryview(flat).cast("B").cast("d", wrong))


def into_out():
    """The caller's list is written and answered, whatever its shape; it may be the points' own, or stand across
    them."""
    flat = some(3 * 30_000)
    expected = sim3.act_many(X, flat)
    for kind in (array.array("d", bytes(8 * len(flat))), memoryview(bytearray(8 * len(flat))).cast("d", [30_000, 3]),
                 (ctypes.c_double * len(flat))()):
        same(sim3.act_many(X, flat, out=kind) is kind, True, "the answer of sim3.act_many with an out")
        same(bytes(kind) == expected.tobytes(), True, f"what an out of {type(kind).__name__} holds")
    own = array.array("d", flat)
    sim3.act_many(X, own, out=own)
    same(own == expected, True, "points moved in their place")
    across = array.array("d", flat) + array.array("d", [0.0] * 6)
    view = memoryview(across)
    sim3.act_many(X, view[:-6], out=view[6:])
    same(across[6:] == expected, True, "points moved to a place across their own")


def wrong_out():
    for wrong, part in (([0.0] * 6, "list"), (bytes(48), "bytes"), (array.array("f", [0.0] * 6), "array"), (7, "int"),
                        (memoryview(bytes(48)).cast("d"), "cannot be written"),
                        (memoryview(array.array("d", [0.0] * 12))[::2], "with gaps"),
                        (memoryview(bytearray(49))[1:].cast("d"), "across the places"),
                        (memoryview(bytearray(48)).cast("d", [3, 2]), "shape (3, 2)")):
        fails(TypeError, ["sim3.act_many: out", part, "expected"], sim3.act_many, X, [0.0] * 6, out=wrong)


@contextlib.contextmanager
def stand_in():
    """A module in numpy's place whose arrays are ctypes' with a shape."""
    class Rows(ctypes.Array):
        _type_, _length_ = ctypes.c_double * 3, 4
        shape = (4, 3)

    module, before = types.ModuleType("numpy"), sys.modules.get("numpy")
    module.ndarray, module.empty = Rows, lambda shape, dtype: {((4, 3), "d"): Rows}[shape, dtype]()
    sys.modules["numpy"] = module
    try:
        yield Rows
    finally:
        del sys.modules["numpy"]
        sys.modules.update({"numpy": before} if before else {})


def shape_of_numpy_by_a_stand_in():
    """An array of numpy's kind is answered by one of the same shape, and all else by a flat array."""
    with stand_in() as Rows:
        pts = Rows.from_buffer(some(12))
        moved = sim3.act_many(X, pts)
        same((type(moved), bytes(moved)), (Rows, sim3.act_many(X, some(12)).tobytes()), "sim3.act_many of numpy's kind")
        same(type(sim3.act_many(X, [0.0] * 12)), array.array, "type of the answer to a list")


def numpy_arrays():
    if not importlib.util.find_spec("numpy"):
        raise Skipped("numpy is not installed")
    import numpy
    for shape in ((20, 3), (60,), (4, 5, 3), (0, 3)):
        pts = numpy.linspace(-9, 9, int(numpy.prod(shape))).reshape(shape)
        moved = sim3.act_many(X, pts)
        same((type(moved), moved.shape, moved.tobytes()),
             (numpy.ndarray, shape, sim3.act_many(X, list(pts.flat)).tobytes()), f"sim3.act_many of the shape {shape}")
    pts = numpy.linspace(-9, 9, 120).reshape(20, 6)[:, ::2]
    same(sim3.act_many(X, pts).tolist(), sim3.act_many(X, pts.copy()).tolist(), "sim3.act_many of a slice")
    same(f32.act_many(X, pts.astype("f")).dtype, numpy.dtype("f"), "type of numpy's numbers at f32")


def hints():
    """Every function of the table has a name in both packages that type checkers see, and hints at each argument and at
    the answer."""
    for package in MODULES.values():
        lines = inspect.getsource(package).splitlines()
        for name in raw.FUNCTIONS:
            assert f"{name} = ENGINE.{name}" in lines, f"{package.__name__} has no line '{name} = ENGINE.{name}'"
            annotations, takes = getattr(package,
                                         name).__annotations__, inspect.signature(getattr(package, name)).parameters
            same(set(annotations), {*takes, "return"}, f"hints of {package.__name__}.{name}")


TESTS = [in_pieces, length_first, shapes, into_out, wrong_out, shape_of_numpy_by_a_stand_in, numpy_arrays, hints]
