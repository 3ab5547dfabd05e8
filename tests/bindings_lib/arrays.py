"""n at a time: every row of an array call has the bits of the single call, at both widths; refusals by row; shapes; the
compiled loops' table against raw's."""
import array
import importlib.util
import random
import re
import struct

from .common import ROOT, Skipped, bits, same  # which finds the package
import sim3
from order_lib import samples
from sim3 import arrays, f32, raw
from sim3.widths import DOUBLE, SINGLE, WIDTHS

MODULES = {DOUBLE: sim3, SINGLE: f32}
N = 60
ODD = [0.0, -0.0, 1.0, -2.5, 1e-8, 3.0, 700.0, -700.0, float("inf"), float("-inf"), float("nan"), 5e-324, 1e-30]
POSED = ("mul", "mul_inv", "inv_mul", "inverse", "renormalize")


def numpy_here():
    """numpy, and the compiled loops; or Skipped."""
    if not importlib.util.find_spec("numpy"):
        raise Skipped("numpy is not installed")
    try:
        arrays.loops()
    except sim3.LibraryMissing as missing:
        raise Skipped(str(missing))
    import numpy
    return numpy


def rows(numpy, source, kind, width, odd=True):
    """N lists of a kind, ordinary numbers and odd ones."""
    def number():
        return source.choice(ODD) if odd and source.random() < 0.15 else source.uniform(-2, 2)
    size = arrays.KINDS[kind]
    found = numpy.array([[number() for _ in range(size)] for _ in range(N)], dtype=width.code)
    return found[:, 0].copy() if kind == raw.NUMBER else found


def frames(numpy, source):
    return numpy.array([[source.randrange(3), source.randrange(3)] for _ in range(N)], dtype="H")


def refusal_of(function, *given, **named):
    """A single answer and 0, or None and the number of its refusal."""
    try:
        return function(*given, **named), 0
    except sim3.Refusal as refusal:
        return None, refusal.number


def numbers_of(numpy, answer, width):
    """All numbers and frames of a single answer in a row, as bytes; every NaN is one."""
    parts = answer if isinstance(answer, tuple) else (answer,)
    return b"".join(bits_of(numpy, part, width) for part in parts)


def bits_of(numpy, part, width):
    found = numpy.atleast_1d(numpy.asarray(part))
    if found.dtype.kind in "ui":
        return found.astype("Q").tobytes()
    return repr(bits(numpy.ascontiguousarray(found, dtype=width.code).tobytes(), width)).encode()


def check_rows(numpy, name, width, arguments, many, single):
    """Every row against the single call, and what a refused row holds."""
    if name not in arrays.REFUSING and not isinstance(many, arrays.Poses):
        many = (*(many if isinstance(many, tuple) else (many,)), numpy.zeros(N, dtype="I"))
    *parts, refused = many
    refusals = 0
    for i in range(N):
        answer, number = refusal_of(single, *(argument[i] for argument in arguments))
        same(int(refused[i]), number, f"{width.package}.{name}, row {i}: its refusal")
        if number:
            refusals += 1
            for part in parts:
                same(bool(numpy.isnan(part[i]).all() if part.dtype.kind == "f" else not part[i].any()), True,
                     f"{width.package}.{name}, row {i}: what a refused row holds")
            continue
        expected = (answer.numbers, (answer.from_, answer.to)) if isinstance(answer, sim3.Pose) else answer
        same(numbers_of(numpy, tuple(part[i] for part in parts), width), numbers_of(numpy, expected, width),
             f"{width.package}.{name}, row {i}")
    return refusals


def every_function():
    """Each function of the table, with the host's values and with values handed in."""
    numpy, refusals = numpy_here(), {}
    for seed, (width, package) in enumerate(MODULES.items()):
        for name, signature in raw.FUNCTIONS.items():
            source = random.Random(1000 * seed + len(name))
            function = getattr(package, name)
            if name in POSED:
                poses = [(rows(numpy, source, "pose", width), frames(numpy, source))
                         for _ in range(2 if "y" in dict(signature.takes) else 1)]
                arguments = [[sim3.Pose(list(numbers), int(pair[0]), int(pair[1])) for numbers, pair in zip(*pose)]
                             for pose in poses]
                many = function(*(sim3.Poses(*pose) for pose in poses))
            elif name == "exp":
                tau, pairs = rows(numpy, source, "tangent", width), frames(numpy, source)
                arguments = [[list(row) for row in tau], pairs[:, 0].tolist(), pairs[:, 1].tolist()]
                many = function(tau, pairs[:, 0], pairs[:, 1])
            else:
                names = [(argument, kind)
                         for argument, kind in signature.takes
                         if argument not in ("up", "down", "values", "jl", "jl_inv")]
                given = [rows(numpy, source, kind, width) for _, kind in names]
                if name == "block_inverse":
                    given[0][::3, 30] = 0.0
                arguments = [[row.tolist() for row in array] for array in given]
                many = function(*given)
            refusals[name] = refusals.get(name, 0) + check_rows(numpy, name, width, arguments, many, function)
    for name in ("mul", "mul_inv", "inv_mul", "scaled_pair", "coeffs_armed", "armed_pair", "block_inverse"):
        assert refusals[name] > 10, f"{name}: {refusals[name]} rows refused; expected some of each"


def values_handed_in():
    """The host's values as arrays, or one for all rows, go through as they are."""
    numpy = numpy_here()
    for seed, (width, package) in enumerate(MODULES.items()):
        source = random.Random(50 + seed)
        tau, values, jl, jl_inv, x, p, sigma = (rows(numpy, source, kind, width)
                                                for kind in ("tangent", "values", "matrix", "matrix", "pose", "vector",
                                                             raw.NUMBER))
        check_rows(numpy, "block_pair", width, [list(map(list, a)) for a in (tau, values, jl, jl_inv)],
                 package.block_pair(tau, values, jl, jl_inv), package.block_pair)
        check_rows(numpy, "adjoint", width, [list(map(list, x)), sigma.tolist()], package.adjoint(x, sigma),
                 package.adjoint)
        check_rows(numpy, "adjoint", width, [list(map(list, x))], package.adjoint(x, 2.5),
                 lambda row: package.adjoint(row, 2.5))
        check_rows(numpy, "act", width, [list(map(list, x)), list(map(list, p))], package.act(x, p), package.act)
        check_rows(numpy, "act", width, [list(map(list, x))], package.act(x, [1.0, 2.0, 3.0]),
                 lambda row: package.act(row, [1.0, 2.0, 3.0]))
        check_rows(numpy, "act_many", width, [list(map(list, x)), list(map(list, p))], package.act_many(x, p),
                 package.act_many)
        check_rows(numpy, "block_pair", width, [list(map(list, tau))], package.block_pair(tau, jl=jl[0]),
                 lambda row: package.block_pair(row, jl=list(jl[0])))
    one = sim3.Pose([1.0, 0, 0, 0, 1, 2, 3, 0.5], 0, 1)
    x, pairs = rows(numpy, source, "pose", DOUBLE), frames(numpy, source)
    check_rows(numpy, "mul", DOUBLE, [[sim3.Pose(list(row), int(a), int(b)) for row, (a, b) in zip(x, pairs)]],
             sim3.mul(one, sim3.Poses(x, pairs)), lambda y: sim3.mul(one, y))


def nearest_arms():
    numpy = numpy_here()
    for width, package in MODULES.items():
        source = random.Random(70)
        sigma, z = rows(numpy, source, raw.NUMBER, width), rows(numpy, source, raw.NUMBER, width)
        found = package.nearest_arm(sigma, z)
        for i in range(N):
            answer, number = refusal_of(package.nearest_arm, float(sigma[i]), float(z[i]))
            expected = (0, 0, 0, number)
            if answer is not None:
                expected = (answer.count, int(answer.direction == "up"), answer.arm, 0)
            same(tuple(int(part[i]) for part in found), expected, f"{width.package}.nearest_arm({sigma[i]}, {z[i]})")


def roots():
    """root and nearest_root of each number, with what is refused."""
    numpy = numpy_here()
    source = random.Random(80)
    z = numpy.array([*ODD, 2.0 ** -1074, 2.0 ** 1023, *(source.uniform(0, 10) for _ in range(N)),
                     *(-source.random() for _ in range(5))])
    found, nearest = sim3.root(z), sim3.nearest_root(z)
    same([part.dtype.str for part in found], ["<u8", "<u8", "<i8", "<f8", "<u4"], "the types of the roots")
    for i, x in enumerate(z.tolist()):
        answer, number = refusal_of(sim3.root, x)
        same(int(found.refused[i]), number, f"refusal of root({x})")
        same(bits(nearest[i].tobytes()), bits(struct.pack("<d", sim3.nearest_root(x))), f"nearest_root({x})")
        if number:
            same((*map(int, (part[i] for part in found[:3])), bool(numpy.isnan(found.nearest[i]))), (0, 0, 0, True),
                 f"root({x})")
        else:
            same(tuple(part[i].item() for part in found[:4]), tuple(answer), f"root({x})")
    assert {0, 1, 8} == set(found.refused.tolist()), "some of each refusal"
    same(sim3.root(z[:0]).nearest.shape, (0,), "the roots of nothing")
    fails(TypeError, "z is an array of complex128", sim3.root, z.astype("complex"))


def compared_one(x, y):
    """The single call, of patterns."""
    return sim3.compare_tangents(array.array("Q", x.tolist()), array.array("Q", y.tolist()))


def orders():
    """Tangents in order: each pair, one against all, a list, and several lists; numbers and patterns."""
    numpy = numpy_here()
    words = numpy.array(list(samples.pairs("arrays", N)), dtype="Q")
    a, b = words[:, 0], words[:, 1]
    for one, other in ((a, b), (a.copy().view("d"), b.copy().view("d"))):
        found = sim3.compare_tangents(one, other)
        same((found.dtype.str, found.shape), ("<i8", (len(a),)), "what the order is given in")
        same(found.tolist(), [compared_one(x, y) for x, y in zip(a, b)], "the order of each pair")
    same(sim3.compare_tangents(a, b[0]).tolist(), [compared_one(x, b[0]) for x in a], "all against one")
    same(sim3.compare_tangents(a[0], b).tolist(), [compared_one(a[0], y) for y in b], "one against all")
    lists = numpy.stack([a, b, a[::-1]])
    expected = [list(sim3.sort_tangents(array.array("Q", one.ravel().tolist()))) for one in lists]
    same(sim3.sort_tangents(lists).reshape(3, -1).tolist(), expected, "each of three lists")
    same(sim3.sort_tangents(a).ravel().tolist(), expected[0], "one list")
    doubles = a.copy().view("d")
    same(sim3.sort_tangents(doubles).view("Q").ravel().tolist(), expected[0], "one list of numbers")
    same(doubles.view("Q").tolist(), a.tolist(), "the list that was handed in")
    fails(sim3.Refusal, "a has 6 numbers; expected 7", sim3.compare_tangents, a[:, :6], b)
    fails(sim3.Refusal, "b has 3 rows where a has", sim3.compare_tangents, a, b[:3])
    fails(sim3.Refusal, "tangents has 6 numbers; expected 7", sim3.sort_tangents, a[:, :6])
    fails(sim3.Refusal, "refusal 5: tangents has 7,175 numbers", sim3.sort_tangents, numpy.zeros((1025, 7)))


def joined():
    """Running.push of Poses joins each row in turn: the answers, the refusals and the state of single calls."""
    numpy, source = numpy_here(), random.Random(85)
    numbers, ends = rows(numpy, source, "pose", DOUBLE, odd=False), frames(numpy, source)
    ups = rows(numpy, source, raw.NUMBER, DOUBLE)
    for up, every in ((None, 0), (None, 2), (ups, 3), (1.5, 1)):
        one, all_, refusals = sim3.Running(), sim3.Running(), 0
        one.every(every)
        all_.every(every)
        found = all_.push(sim3.Poses(numbers, ends), up)
        for i in range(N):
            given = sim3.Pose(list(numbers[i]), int(ends[i, 0]), int(ends[i, 1]))
            answer, number = refusal_of(one.push, given, float(up[i]) if up is ups else up)
            same(int(found.refused[i]), number, f"Running.push, row {i}: its refusal")
            refusals += bool(number)
            if answer is not None:
                expected = numbers_of(numpy, (answer.numbers, (answer.from_, answer.to)), DOUBLE)
                same(numbers_of(numpy, (found.numbers[i], found.frames[i]), DOUBLE), expected, f"Running.push, row {i}")
        same(repr(all_), repr(one), "the running join afterwards")
        assert 10 < refusals < N - 10, f"{refusals} rows refused; expected some of each"
    fails(sim3.Refusal, "Running.push: refusal 100: x has 7 numbers", all_.push, sim3.Poses(numbers[:, :7], ends))
    same(sim3.Running().push(sim3.Poses(numbers[:0], ends[:0])).numbers.shape, (0, 8), "no rows")


def renormalized():
    """renormalize_all of Poses has the bits of renormalize."""
    numpy = numpy_here()
    source = random.Random(90)
    poses = sim3.Poses(rows(numpy, source, "pose", DOUBLE), frames(numpy, source))
    found, expected = sim3.renormalize_all(poses), sim3.renormalize(poses)
    for part, other in zip(found, expected):
        same(bits_of(numpy, part, DOUBLE), bits_of(numpy, other, DOUBLE), "renormalize_all of arrays")


def whole_matrices():
    """A block's 7 by 7 matrix: (a 0 0), (b c f), (0 0 e), its parts column by column."""
    numpy = numpy_here()
    block = numpy.arange(1.0, 32.0)
    expected = numpy.zeros((7, 7))
    expected[:3, :3], expected[3:6, :3], expected[3:6, 3:6] = (block[at:at + 9].reshape(3, 3).T for at in (0, 9, 18))
    expected[3:6, 6], expected[6, 6] = block[27:30], block[30]
    same(sim3.block_matrix(block).tolist(), expected.tolist(), "the matrix of a block")
    same(sim3.block_matrix(list(block)).tolist(), expected.tolist(), "the matrix of a list")
    same(sim3.block_matrix(numpy.stack([block, -block])).tolist(), [expected.tolist(), (-expected).tolist()],
         "the matrices of two blocks")
    fails(sim3.Refusal, "block_matrix: refusal 100", sim3.block_matrix, block[:30])


def fails(kind, part, function, *given, **named):
    try:
        answer = function(*given, **named)
    except kind as error:
        assert part in str(error), f"no {part!r} in {error}"
        return
    raise AssertionError(f"{function.__name__} answered {answer}")


def wrong_shapes():
    """Wrong rows are refused before anything is computed, by the argument's name."""
    numpy = numpy_here()
    tau, x, pairs = numpy.zeros((5, 7)), numpy.ones((5, 8)), numpy.zeros((5, 2), dtype="H")
    fails(sim3.Refusal, "exp: refusal 100: tau has 6 numbers; expected 7", sim3.exp, tau[:, :6], 0, 0)
    fails(sim3.Refusal, "values has 4 rows where tau has 5", sim3.exp, tau, 0, 0, numpy.zeros((4, 10)))
    fails(sim3.Refusal, "y has 4 rows where x has 5", sim3.mul, sim3.Poses(x, pairs), sim3.Poses(x[:4], pairs[:4]))
    fails(sim3.Refusal, "x.frames has 4 rows where x has 5", sim3.inverse, sim3.Poses(x, pairs[:4]))
    fails(TypeError, "x.frames is of float64", sim3.inverse, sim3.Poses(x, pairs.astype("d")))
    fails(OverflowError, "x.frames holds 0 to 70,000", sim3.inverse, sim3.Poses(x, pairs.astype("l") + [0, 70_000]))
    fails(OverflowError, "holds -1 to 3", sim3.exp, tau, -1, 3)
    fails(TypeError, "from_ is of float64", sim3.exp, tau, 1.5, 3)
    fails(TypeError, "expected a sim3.Poses", sim3.mul, sim3.Poses(x, pairs), x)
    fails(TypeError, "array of complex128", sim3.block_pair, tau.astype("complex"))
    fails(TypeError, "out goes with one pose", sim3.act_many, x, numpy.zeros((5, 3)), out=numpy.zeros((5, 3)))
    same([part.shape for part in sim3.block_pair(tau[:0])], [(0, 31)] * 4, "the shapes of no rows")
    same(sim3.exp(tau[:0], 1, 2).frames.shape, (0, 2), "the frames of no rows")


def any_arrays():
    """Other numbers are converted, gaps and order do not matter, and what is handed in stays as it is."""
    numpy = numpy_here()
    tau = numpy.random.default_rng(3).normal(size=(8, 7))
    expected = sim3.block_pair(tau)[0].tolist()
    wide = numpy.zeros((8, 14))
    wide[:, ::2] = tau
    for what, form in (("gaps", wide[:, ::2]), ("Fortran's order", numpy.asfortranarray(tau)),
                       ("read-only", numpy.frombuffer(tau.tobytes()).reshape(8, 7)),
                       ("the other order of bytes", tau.astype(">d"))):
        before = form.copy()
        same(sim3.block_pair(form)[0].tolist() == expected, True, f"block_pair of {what}")
        same(form.tolist(), before.tolist(), f"{what} afterwards")
    whole = numpy.ones((3, 7), dtype="i4")
    same(sim3.exp(whole, 1, 2).numbers.tolist(), sim3.exp(whole.astype("d"), 1, 2).numbers.tolist(),
         "exp of whole numbers")
    same(sim3.exp(tau, 1, 2)._replace(refused=None).numbers.flags.c_contiguous, True, "order of the answer")


def table_of_loops():
    """The forms that rows.c has of each function are those of raw's table."""
    text = (ROOT / "bindings/python/rows.c").read_text(encoding="utf-8")
    found = {name: re.findall(r"\{'(.)', (\d+)\}", rest)
             for name, rest in re.findall(r"\{BOTH\((\w+)\), (.*)\},\n", text)}
    near = found.pop("nearest_arm")
    same(near, [("r", "1"), ("r", "1"), ("q", "3")], "the forms of nearest_arm")
    alone = {name: re.findall(r"\{'(.)', (\d+)\}", rest)
             for name, rest in re.findall(r'\{"([\w.]+)", \{\w+, NULL\}, (.*)\},\n', text)}
    same(alone, {"root": [("r", "1"), ("q", "2"), ("i", "1"), ("r", "1")],
                 "compare_tangents": [("q", "7"), ("q", "7"), ("i", "1")],
                 "Running.push": [("r", "8"), ("h", "2"), ("R", "1"), ("r", "8"), ("h", "5"), ("r", "8"), ("h", "2")]},
         "the forms of what there is in doubles alone")
    same(set(found), set(raw.FUNCTIONS), "the functions of rows.c")
    host = ("up", "down", "ds", "values", "jl", "jl_inv")
    for name, signature in raw.FUNCTIONS.items():
        takes = [("h" if kind == raw.FRAMES else "R" if argument in host else "r", str(arrays.KINDS[kind]))
                 for argument, kind in signature.takes]
        # renormalize writes its pose
        size = sum(arrays.KINDS[kind] for kind in signature.gives if kind != raw.FRAMES) or 8
        same(found[name], [*takes, ("r", str(size)), *([("h", "2")] if raw.FRAMES in signature.gives else [])],
             f"the forms of {name}")
    same(len(WIDTHS), 2, "widths")


def without_loops():
    """Where the loops were not compiled, arrays are refused with what to do, and single calls go on."""
    before, arrays.ROWS = arrays.ROWS, "rows.none.so"
    arrays.loops.cache_clear()
    try:
        fails(sim3.LibraryMissing, "no rows.none.so", arrays.loops)
        same(list(sim3.act_many([1, 0, 0, 0, 1, 2, 3, 0], [1, 1, 1])), [2.0, 3.0, 4.0], "act_many without the loops")
    finally:
        arrays.ROWS = before
        arrays.loops.cache_clear()


TESTS = [every_function, values_handed_in, nearest_arms, roots, orders, joined, renormalized, whole_matrices,
         wrong_shapes,
         any_arrays, table_of_loops, without_loops]
