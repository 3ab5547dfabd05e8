"""The functions over arrays of numpy: each row is what a single call takes. The loop over the rows is in C
(bindings/python/rows.c), over the same functions of include/sim3.h; every row has the bits of the single call.

    taus = numpy.zeros((1000, 7))
    x = sim3.exp(taus, from_=3, to=7)            # Poses: numbers (1000, 8), frames (1000, 2), refused (1000,)
    left, left_inv, right, right_inv = sim3.block_pair(taus)          # (1000, 31) each
    sim3.block_matrix(left)                                           # (1000, 7, 7)

Where one argument has rows, every other has as many, or is a single thing, which then serves all rows. Numbers for each
row (sigma, z, up, down, ds, frames of exp) are arrays of the shape (n,). Poses are Poses, or (n, 8) where no frame is
read.
Answers have the shape (n, ..) of the single answer. Nothing is raised for what a row holds: where a function may
refuse, its answer has one thing more, `refused`, an array (n,) of uint32 with 0 for each row that was answered, else
the number of the refusal; such a row holds NaNs, and frames or whole numbers of 0. Poses have their own field for it.
Refusal 100 is raised, and nothing computed, where two arguments have different numbers of rows, or rows of a wrong
length. sort_tangents sorts a list (n, 7), or each of m lists (m, n, 7).
"""
import functools
import importlib.util
import inspect
import pathlib
import sys
import sysconfig
from typing import Any, NamedTuple

from . import raw
from .numbers import ctypes_numbers, number, patterns
from .poses import EXPECTED, MOST_FRAME, Pose
from .refusals import LIST_LENGTH, refusal, wrong_length
from .widths import DOUBLE, SINGLE

ROWS = "rows" + (sysconfig.get_config_var("EXT_SUFFIX") or ".so")  # the module of loops
C_NAMES = {"act": "act_each"}  # the C function of one that has another name
REFUSING = {"mul", "mul_inv", "inv_mul", "scaled_pair", "coeffs_armed", "armed_pair", "block_inverse", "nearest_arm"}
KINDS = {**{kind: count for kind, (count, _) in raw.KINDS.items()}, raw.NUMBER: 1, raw.POINTS: 3}
# For each entry of the 7 by 7 matrix of a block, by rows: its index in the list of 31, or -1 for a zero.
BLOCK_PLACES = [*([row, 3 + row, 6 + row, -1, -1, -1, -1] for row in range(3)),
                *([9 + row, 12 + row, 15 + row, 18 + row, 21 + row, 24 + row, 27 + row] for row in range(3)),
                [-1, -1, -1, -1, -1, -1, 30]]


class Poses(NamedTuple):
    """n poses: numbers (n, 8), frames (n, 2) of uint16, from and to; and where they are an answer, the number of each
    row's refusal, 0 where there is none. They may be made without it."""

    numbers: Any
    frames: Any
    refused: Any = None


class RootRows(NamedTuple):
    """root of n: what Root has of each, arrays (n,), and the number of each row's refusal."""

    root: Any
    remainder: Any
    exponent: Any
    nearest: Any
    refused: Any


class NearRows(NamedTuple):
    """nearest_arm of n: neighbouring numbers to the next arm, 0 where there is none; 1 where it lies up, else 0; that
    arm; and the number of each row's refusal."""

    count: Any
    up: Any
    arm: Any
    refused: Any


@functools.lru_cache(maxsize=None)
def loops():
    """The module of loops, beside this file or where bindings/build puts it; LibraryMissing without it."""
    here = pathlib.Path(__file__).resolve()
    places = [here.with_name(ROWS), *(parent / "target" / "bindings" / ROWS for parent in here.parents[3:4])]
    for path in places:
        if path.exists():
            raw.library()  # so that the loops find the library's functions
            try:
                spec = importlib.util.spec_from_file_location("sim3.rows", path)
                module = importlib.util.module_from_spec(spec)
                spec.loader.exec_module(module)
                return module
            except ImportError as error:
                raise raw.LibraryMissing(f"sim3: {path} does not fit the library: {error}; remove it and run "
                                         "bindings/build") from None
    raise raw.LibraryMissing(f"sim3: no {places[0].name}, which has the loops over arrays; bindings/build makes it "
                             "where the headers of Python "
                             "are installed (python3-dev)")


def fast_move():
    """The fast function for a list of points, or None without the module of loops."""
    try:
        return loops().move
    except raw.LibraryMissing:
        return None


def imported_numpy():
    """numpy, if the caller has imported it; else None."""
    return sys.modules.get("numpy")


def is_rows(x, *depths):
    """Whether x is an array of numpy with one of these numbers of dimensions."""
    numpy = imported_numpy()
    return numpy is not None and isinstance(x, numpy.ndarray) and x.ndim in depths


def accept_arrays(single):
    """Decorates a method of the engine so that it takes arrays of numpy too."""
    takes = tuple(inspect.signature(single).parameters)[1:]
    depths = {name: depth_of(single.__name__, name) for name in takes}
    in_order = tuple(depths.values())

    @functools.wraps(single)
    def wrapper(self, *given, **named):
        numpy = sys.modules.get("numpy")
        if numpy is not None:
            kind = numpy.ndarray
            for x, depth in zip(given, in_order):
                if type(x) is Poses or isinstance(x, kind) and len(x.shape) == depth:
                    return call_over_rows(self, single, takes, given, named)
            if named and any(type(x) is Poses or isinstance(x, kind) and len(x.shape) == depths.get(name)
                             for name, x in named.items()):
                return call_over_rows(self, single, takes, given, named)
        return single(self, *given, **named)
    return wrapper


def depth_of(function, argument):
    """How many dimensions an array of many of this argument has: 1 for numbers, 2 for lists, 0 if it takes no rows."""
    if function == "nearest_arm":
        return 1
    kind = dict(raw.FUNCTIONS[C_NAMES.get(function, function)].takes).get(argument)
    return 0 if kind in (None, raw.POINTS) else 1 if kind == raw.NUMBER else 2


class ArrayCall:
    """One call over arrays: the buffers of its arguments, and how many rows they have."""

    def __init__(self, name, engine=None, width=DOUBLE):
        self.engine, self.width = engine, engine.width if engine else width
        self.name, self.numpy = name, imported_numpy()
        self.rows, self.first = None, None
        self.inputs = []

    def count_rows(self, argument, rows):
        """Counts the rows of an argument; all arguments with rows must have as many."""
        if self.rows is None:
            self.rows, self.first = rows, argument
        elif rows != self.rows:
            raise refusal(LIST_LENGTH, self.name, f"{argument} has {rows:,} rows where {self.first} has {self.rows:,}; "
                          "hand in as many of each, or one for all", self.width)

    def take(self, argument, kind, x):
        """An argument that is a list or a number for each row, or one for all."""
        size, depth = KINDS[kind], 1 if kind == raw.NUMBER else 2
        if isinstance(x, self.numpy.ndarray) and len(x.shape) == depth:
            if depth == 2 and x.shape[1] != size:
                raise wrong_length(self.name, argument, "vector" if kind == raw.POINTS else kind, x.shape[1],
                                   self.width)
            self.count_rows(argument, len(x))
            self.inputs.append(self.of_width(argument, x))
        elif kind == raw.NUMBER:
            found = number(f"{self.width.package}.{self.name}: {argument}", x, self.width)
            self.inputs.append(self.numpy.array([found], dtype=self.width.code))
        else:
            self.inputs.append(self.numpy.array(self.read_single(argument, kind, x), dtype=self.width.code))

    def read_single(self, argument, kind, x):
        """Reads a list that serves all rows."""
        if kind != raw.POINTS:
            return self.engine.read(self.name, argument, x)
        found = ctypes_numbers(f"{self.width.package}.{self.name}: {argument}", x, self.width)
        if len(found) != KINDS[kind]:
            raise wrong_length(self.name, argument, "vector", len(found), self.width)
        return found

    def of_width(self, argument, x):
        """An array of the width's numbers, without a copy if the caller's is one."""
        try:
            return self.numpy.ascontiguousarray(x.astype(self.width.code, casting="same_kind", copy=False))
        except TypeError:
            raise TypeError(f"{self.width.package}.{self.name}: {argument} is an array of {x.dtype}; expected one of "
                            f"{self.width.word}s") from None

    def take_patterns(self, argument, x):
        """Tangents (n, 7) by their bit patterns, or one for all rows: doubles, or patterns themselves."""
        if not is_rows(x, 2):
            words, _ = patterns(f"{self.width.package}.{self.name}: {argument}", x)
            self.inputs.append(words)
            found = len(words)
        else:
            self.count_rows(argument, len(x))
            self.inputs.append(self.as_patterns(argument, x))
            found = x.shape[1]
        if found != KINDS["tangent"]:
            raise wrong_length(self.name, argument, "tangent", found)

    def as_patterns(self, argument, x):
        """The bit patterns of an array of numbers, or the array itself if it holds patterns."""
        if x.dtype.kind == "u" and x.dtype.itemsize == 8:
            return self.numpy.ascontiguousarray(x, dtype="Q")
        return self.of_width(argument, x).view("Q")

    def take_frames(self, argument, x):
        """Frames (n, 2)."""
        found = self.numpy.asarray(x)
        if found.ndim != 2 or found.shape[1] != 2 or found.dtype.kind not in "ui":
            raise TypeError(f"{self.width.package}.{self.name}: {argument} is of {found.dtype} and has the shape "
                            f"{found.shape}; expected (n, 2), "
                            f"from and to of each, {EXPECTED}")
        if found.size and not 0 <= int(found.min()) <= int(found.max()) <= MOST_FRAME:
            raise OverflowError(f"{self.width.package}.{self.name}: {argument} holds {int(found.min()):,} to "
                                f"{int(found.max()):,}; expected frames, {EXPECTED}")
        self.count_rows(argument, len(found))
        self.inputs.append(self.numpy.ascontiguousarray(found.astype("H", copy=False)))

    def take_pose(self, argument, x):
        """Poses with their frames, or one Pose for all rows."""
        if isinstance(x, Poses):
            self.take(argument, "pose", self.numpy.asarray(x.numbers))
            self.take_frames(argument + ".frames", x.frames)
        elif isinstance(x, Pose):
            numbers, _, frames = self.engine.read_pose(self.name, argument, x)
            self.inputs += [numbers, self.numpy.frombuffer(frames, dtype="H")]
        else:
            raise TypeError(f"{self.width.package}.{self.name}: {argument} is {type(x).__name__}; expected a "
                            "sim3.Poses, whose fields are numbers (n, 8) "
                            "and frames (n, 2), or a sim3.Pose for all rows")

    def take_given(self, argument, kind, x):
        """An argument of which no frame is read, or None for the host's values."""
        if x is None:
            self.inputs.append(None)
        else:
            self.take(argument, kind, x.numbers if isinstance(x, Poses) else x)

    def run(self, *outs):
        """Calls the C function over all rows: writes the outs, and returns the number of each row's refusal."""
        refused = self.numpy.empty(self.rows, dtype="I")
        loops().run(self.name, self.width is SINGLE, self.rows, tuple(self.inputs), outs, refused)
        return refused

    def new_array(self, size, code=None):
        """A new array of `size` numbers in each row."""
        return self.numpy.empty((self.rows, size), dtype=code or self.width.code)


def call_over_rows(engine, single, takes, given, named):
    """The answer of a function over arrays. The environment is checked once, before the host's values are computed."""
    if raw.differs():
        raise raw.other_environment(single.__name__, engine.width)
    words = inspect.signature(single).bind(engine, *given, **named).arguments
    name = C_NAMES.get(single.__name__, single.__name__)
    call = ArrayCall(name, engine)
    if words.get("out") is not None:
        raise TypeError(f"{engine.width.package}.{single.__name__}: out goes with one pose for all points; expected "
                        "none with a pose for each")
    if name == "exp":
        return exp_rows(call, words)
    if name == "nearest_arm":
        return nearest_arm_rows(call, words)
    if name in ("mul", "mul_inv", "inv_mul", "inverse", "renormalize"):
        return pose_rows(call, words)
    for argument, kind in raw.FUNCTIONS[name].takes:
        call.take_given(argument, kind, words.get("p" if single.__name__ == "act" and argument == "pts" else argument))
    return list_rows(call)


def exp_rows(call, words):
    """exp of each tangent, with frames that are numbers, or arrays (n,)."""
    call.take("tau", "tangent", words["tau"])
    call.take_given("values", "values", words.get("values"))
    numpy, rows = call.numpy, call.rows
    frames = [numpy.asarray(words[side]) for side in ("from_", "to")]
    for side, x in zip(("from_", "to"), frames):
        if x.ndim and len(x) != rows or x.ndim > 1 or x.dtype.kind not in "ui":
            raise TypeError(f"{call.width.package}.exp: {side} is of {x.dtype} and has the shape {x.shape}; expected "
                            f"a frame for all rows, or ({rows},) of them")
    call.take_frames("from_ and to", numpy.stack([numpy.broadcast_to(x, (rows,)) for x in frames], axis=1))
    return poses_of(call)


def poses_of(call):
    """The poses that a function writes."""
    numbers, frames = call.new_array(8), call.new_array(2, "H")
    return Poses(numbers, frames, call.run(numbers, frames))


def pose_rows(call, words):
    """A function of poses with their frames, over rows."""
    for argument in ("x", "y"):
        if argument in words:
            call.take_pose(argument, words[argument])
    if call.name == "renormalize":
        numbers, frames = call.new_array(8), call.inputs.pop()
        return Poses(numbers, frames.copy(), call.run(numbers))
    last = raw.FUNCTIONS[call.name].takes[-1][0]
    call.take_given(last, raw.NUMBER, words.get(last))
    return poses_of(call)


def nearest_arm_rows(call, words):
    """nearest_arm of each row."""
    for argument in ("sigma", "z"):
        call.take(argument, raw.NUMBER, words[argument])
    out = call.new_array(3, "Q")
    refused = call.run(out)
    return NearRows(out[:, 0], out[:, 1], out[:, 2], refused)


def list_rows(call):
    """The lists that a function writes, each an array, and `refused` after them if it may refuse."""
    sizes = [KINDS[kind] for kind in raw.FUNCTIONS[call.name].gives]
    out = call.new_array(sum(sizes))
    refused = call.run(out)
    found, at = [], 0
    for size in sizes:
        found.append(out[:, at:at + size])
        at += size
    found += [refused] if call.name in REFUSING else []
    return found[0] if len(found) == 1 else tuple(found)


def push_rows(x, up, numbers, state):
    """Poses joined one after another to a running pose, whose numbers and state are written: the running pose after
    each. A pose that is refused changes nothing."""
    check_environment("running_push")
    call = ArrayCall("Running.push")
    call.take("x", "pose", call.numpy.asarray(x.numbers))
    call.take_frames("x.frames", x.frames)
    call.take_given("up", raw.NUMBER, up)
    call.inputs += [numbers, state]
    return poses_of(call)


def roots(z):
    """The root of each number of an array (n,), with its remainder."""
    check_environment("root")
    call = ArrayCall("root")
    call.take("z", raw.NUMBER, z)
    whole, exponent, nearest = call.new_array(2, "Q"), call.new_array(1, "q"), call.new_array(1)
    refused = call.run(whole, exponent, nearest)
    return RootRows(whole[:, 0], whole[:, 1], exponent[:, 0], nearest[:, 0], refused)


def nearest_roots(z):
    """The double of each root; of what root refuses, the root of IEEE 754."""
    found, numpy = roots(z), imported_numpy()
    return numpy.where(found.refused == 0, found.nearest, numpy.where(found.refused == 8, z, numpy.nan))


def compare_rows(a, b):
    """The order of each tangent of a and of b: (n,), -1, 0 or 1."""
    check_environment("compare_tangents")
    call = ArrayCall("compare_tangents")
    call.take_patterns("a", a)
    call.take_patterns("b", b)
    out = call.new_array(1, "q")
    call.run(out)
    return out[:, 0]


def sort_rows(tangents, sort):
    """The tangents (n, 7) of a list in order, or of each of m lists (m, n, 7), by a function that sorts a list of
    patterns in place."""
    check_environment("sort_tangents")
    if tangents.shape[-1] != KINDS["tangent"]:
        raise wrong_length("sort_tangents", "tangents", "tangent", tangents.shape[-1])
    words = ArrayCall("sort_tangents").as_patterns("tangents", tangents).copy()
    for tangents_list in words.reshape(-1, *words.shape[-2:]):
        sort(tangents_list.reshape(-1))
    return words if tangents.dtype.kind == "u" else words.view("d")


def check_environment(name):
    """Raises OtherEnvironment if this thread does not compute as the proofs say."""
    if raw.differs():
        raise raw.other_environment(name)


def block_matrix(j):
    """A block of 31 numbers as its matrix (7, 7), and blocks (n, 31) as (n, 7, 7), arrays of numpy."""
    import numpy
    found = numpy.asarray(j)
    if found.ndim == 0 or found.shape[-1] != KINDS["block"]:
        raise wrong_length("block_matrix", "j", "block", found.shape[-1] if found.ndim else 1)
    ended = numpy.concatenate([found, numpy.zeros_like(found[..., :1])], axis=-1)  # a zero at place -1
    return ended[..., numpy.array(BLOCK_PLACES)]
