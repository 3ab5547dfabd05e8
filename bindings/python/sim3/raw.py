"""The C functions of include/sim3.h for ctypes: one table of their arguments at both widths, the shared library that
has them, and the bare call. The table is trusted; tests/bindings compares it with the header.
"""
import ctypes
import functools
import os
import pathlib
from typing import NamedTuple, Tuple

from . import mxcsr
from .widths import DOUBLE, WIDTHS

NUMBER, POINTS, FRAMES = "number", "points", "frames"

# How many numbers a list of each kind has, and what they are: floats of a width, and 16-bit numbers for frames.
KINDS = {
    "pose": (8, "quaternion w x y z, translation x y z, sigma"),
    FRAMES: (2, "from, to"),
    "tangent": (7, "phi x y z, rho x y z, sigma"),
    "values": (10, "root sin_half cos_half sin e m e0 m0 up down"),
    "matrix": (9, "column by column"),
    "block": (31, "a 9, b 9, c 9, f 3, e"),
    "vector": (3, "x y z"),
    "coefficients": (10, "v0 v1 v2 w0 w1 w2 dv1 dv2 chi_delta and the flag"),
    "arm": (2, "the arm, 1 to 5, and 1 where v0 and w0 of the closed arm come from series, else 0"),
}


class Function(NamedTuple):
    """The arguments before `out`, each a name and a kind, and the kinds that `out` holds in a row; frames
    go to `out_frames`, which follows it."""

    takes: Tuple[Tuple[str, str], ...]
    gives: Tuple[str, ...]


def function(takes, gives):
    """`x:pose up:number` and `block block` as a Function."""
    pairs = tuple(tuple(pair.split(":")) for pair in takes.split())
    return Function(pairs, tuple(gives.split()))


# renormalize works in place, so it has no `out`. The functions of points write a list as long as theirs.
FUNCTIONS = {
    "exp": function("tau:tangent values:values frames:frames", "pose frames"),
    "mul": function("x:pose x_frames:frames y:pose y_frames:frames up:number", "pose frames"),
    "inverse": function("x:pose x_frames:frames down:number", "pose frames"),
    "mul_inv": function("x:pose x_frames:frames y:pose y_frames:frames ds:number", "pose frames"),
    "inv_mul": function("x:pose x_frames:frames y:pose y_frames:frames down:number", "pose frames"),
    "renormalize": function("x:pose", ""),
    "act_many": function("x:pose up:number pts:points", "points"),
    "act_each": function("x:pose up:number pts:points", "points"),
    "scaled_pair": function("sigma:number z:number values:values", "coefficients coefficients"),
    "coeffs_armed": function("sigma:number z:number values:values", "arm coefficients"),
    "armed_pair": function("sigma:number z:number values:values", "arm arm coefficients coefficients"),
    "block_pair": function("tau:tangent values:values jl:matrix jl_inv:matrix", "block block block block"),
    "block_inverse": function("j:block", "block"),
    "adjoint": function("x:pose up:number", "block"),
    "act_jacobians_right": function("x:pose up:number p:vector", "matrix matrix vector matrix"),
    "act_jacobians_left": function("x:pose up:number p:vector", "matrix matrix vector matrix"),
    "compose_jacobians_right": function("y:pose down:number", "block block"),
    "compose_jacobians_left": function("x:pose up:number", "block block"),
    "inverse_jacobian_right": function("x:pose up:number", "block"),
    "inverse_jacobian_left": function("x:pose down:number", "block"),
}

# sim3_root is not in the table: after z it writes three lists, each of its own type and count.
ROOT_WRITES = {"whole": (ctypes.c_uint64, 2), "exponent": (ctypes.c_int64, 1), "nearest": (ctypes.c_double, 1)}

# Nor is sim3_nearest_arm, at either width: after sigma and z it writes one list of integers.
NEAR_WRITES = {"out": (ctypes.c_uint64, 3)}

# Nor are those of tangents by their bit patterns: their lists in order, each a name and a type, the last of which is
# written.
PATTERNS = {
    "compare_tangents": (("a", ctypes.c_uint64), ("b", ctypes.c_uint64), ("out", ctypes.c_int64)),
    "sort_tangents": (("list", ctypes.c_uint64),),
}

# Nor are those of a running join, of a list of poses and of sheets: each argument's name, its type, and whether it is a
# list that is written, a list that is read, or a number.
WRITTEN, READ = "written", "read"
RUNNING = {
    "running_start": (("pose", ctypes.c_double, WRITTEN), ("state", ctypes.c_uint16, WRITTEN)),
    "running_push": (("pose", ctypes.c_double, WRITTEN), ("state", ctypes.c_uint16, WRITTEN),
                     ("x", ctypes.c_double, READ),
                     ("x_frames", ctypes.c_uint16, READ), ("up", ctypes.c_double, NUMBER)),
    "running_every": (("state", ctypes.c_uint16, WRITTEN), ("n", ctypes.c_uint16, NUMBER)),
    "renormalize_all": (("poses", ctypes.c_double, WRITTEN),),
    "sheets_start": (("store", ctypes.c_uint8, WRITTEN),),
    "sheets_put": (("store", ctypes.c_uint8, WRITTEN), ("sheet", ctypes.c_uint16, NUMBER),
                   ("take", ctypes.c_uint16, NUMBER), ("x", ctypes.c_double, READ),
                   ("x_frames", ctypes.c_uint16, READ), ("out", ctypes.c_uint16, WRITTEN)),
    "sheets_get": (("store", ctypes.c_uint8, READ), ("sheet", ctypes.c_uint16, NUMBER),
                   ("take", ctypes.c_uint16, WRITTEN), ("out", ctypes.c_double, WRITTEN),
                   ("out_frames", ctypes.c_uint16, WRITTEN)),
}
SHEETS_SIZE = 167_938  # bytes of a store

# Nor are those of the floating-point environment: the type that each returns, and its arguments as above.
ENVIRONMENT = {
    "environment": (ctypes.c_uint32, (("probe", ctypes.c_double, READ),)),
    "environment_differs": (ctypes.c_uint32, ()),
    "environment_enter": (ctypes.c_uint32, ()),
    "environment_leave": (None, (("was", ctypes.c_uint32, NUMBER),)),
}

# The names in Python of the functions of a class.
METHODS = {"running_start": "Running", "running_push": "Running.push", "running_every": "Running.every",
           "sheets_start": "Sheets", "sheets_put": "Sheets.put", "sheets_get": "Sheets.get"}


class LibraryMissing(OSError):
    """The shared library is missing or not that of this engine; the text says what to do."""


LIBRARY = "libsim3.so"


def library_path():
    """The path that the environment variable SIM3_LIBRARY names; else beside this file, where an installed package has
    the library; else that of bindings/build in the source tree."""
    named, here = os.environ.get("SIM3_LIBRARY"), pathlib.Path(__file__).resolve()
    if named:
        return pathlib.Path(named)
    beside = here.with_name(LIBRARY)
    return beside if beside.exists() or len(here.parents) < 4 else here.parents[3] / "target" / "bindings" / LIBRARY


@functools.lru_cache(maxsize=None)
def kinds(name):
    """The kinds of a function's arguments by their names."""
    return dict(FUNCTIONS[name].takes)


@functools.lru_cache(maxsize=None)
def fast_function(name):
    """A C function that takes each list as an address or as bytes, which is faster. Its name has the width's ending."""
    found = library()[name]
    symbol = ctypes.CDLL(str(library_path().resolve()))["sim3_" + name]
    lists = (ctypes.POINTER(width.number) for width in WIDTHS)
    pointers = (*lists, ctypes.POINTER(ctypes.c_uint16))
    symbol.argtypes = [ctypes.c_void_p if kind in pointers else kind for kind in found.argtypes]
    symbol.restype = found.restype
    return symbol


@functools.lru_cache(maxsize=None)
def library():
    """The C functions by name, loaded at the first call."""
    path = library_path()
    if not path.exists():
        raise LibraryMissing(f"sim3: no shared library {path}; bindings/build makes it, "
                             "or SIM3_LIBRARY names another place")
    try:
        loaded = ctypes.CDLL(str(path.resolve()))
        found = {name + width.ending: declared(loaded["sim3_" + name + width.ending], signature, width)
                 for width in WIDTHS for name, signature in FUNCTIONS.items()}
        found.update((name, declared_lists(loaded["sim3_" + name], signature)) for name, signature in PATTERNS.items())
        found.update((name, declared_running(loaded["sim3_" + name], signature)) for name, signature in RUNNING.items())
        found.update((name, declared_environment(path, name)) for name in ENVIRONMENT)
        found.update(("nearest_arm" + width.ending, declared_near(loaded["sim3_nearest_arm" + width.ending], width))
                     for width in WIDTHS)
        return {**found, "root": declared_root(loaded["sim3_root"]),
                "version": declared_version(loaded["sim3_version"])}
    except (OSError, AttributeError) as error:
        raise LibraryMissing(f"sim3: {path} is no library of this engine: {error}; "
                             "remove it and run bindings/build") from None


def c_types(kind, width):
    """The C types of an argument: a list is a pointer and a count."""
    if kind == NUMBER:
        return [width.number]
    return [ctypes.POINTER(ctypes.c_uint16 if kind == FRAMES else width.number), ctypes.c_size_t]


def declared(symbol, signature, width):
    """A C function with the types of its arguments."""
    written = ["out", FRAMES] if FRAMES in signature.gives else ["out"] if signature.gives else []
    kinds = [*(kind for _, kind in signature.takes), *written]
    symbol.argtypes = [c_type for kind in kinds for c_type in c_types(kind, width)]
    symbol.restype = ctypes.c_uint32
    return symbol


def declared_version(symbol):
    """sim3_version, which returns a text."""
    symbol.argtypes, symbol.restype = [], ctypes.c_char_p
    return symbol


def declared_root(symbol):
    """sim3_root with the types of its arguments."""
    lists = [c_type for kind, _ in ROOT_WRITES.values() for c_type in (ctypes.POINTER(kind), ctypes.c_size_t)]
    symbol.argtypes = [ctypes.c_double, *lists]
    symbol.restype = ctypes.c_uint32
    return symbol


def declared_near(symbol, width):
    """sim3_nearest_arm of a width with the types of its arguments."""
    lists = [c_type for kind, _ in NEAR_WRITES.values() for c_type in (ctypes.POINTER(kind), ctypes.c_size_t)]
    symbol.argtypes = [width.number, width.number, *lists]
    symbol.restype = ctypes.c_uint32
    return symbol


def declared_lists(symbol, signature):
    """A C function whose arguments are all lists, each with its own type."""
    symbol.argtypes = [c_type for _, kind in signature for c_type in (ctypes.POINTER(kind), ctypes.c_size_t)]
    symbol.restype = ctypes.c_uint32
    return symbol


def declared_running(symbol, signature):
    """A C function of the running join with the types of its arguments."""
    symbol.argtypes = [c_type for _, kind, use in signature
                       for c_type in ([kind] if use == NUMBER else [ctypes.POINTER(kind), ctypes.c_size_t])]
    symbol.restype = ctypes.c_uint32
    return symbol


def declared_environment(path, name):
    """A C function of the environment, loaded so that it keeps Python's lock: releasing it takes longer than the
    call."""
    gives, signature = ENVIRONMENT[name]
    symbol = declared_running(ctypes.PyDLL(str(path.resolve()))["sim3_" + name], signature)
    symbol.restype = gives
    return symbol


def differs():
    """0 if this thread computes as the proofs say, else the bits of MXCSR that differ. The first call replaces this
    name by the C function itself."""
    global differs
    differs = library()["environment_differs"]
    return differs()


def other_environment(name, width=DOUBLE):
    """The exception of a function that is called in another environment."""
    return mxcsr.other_environment(f"{width.package}.{METHODS.get(name, name)}", differs())


def call(name, *arguments, width=DOUBLE):
    """The result of a C function: 0, or the number of a refusal. A list is a ctypes array of its type, and one that is
    written must share no bytes with another. OtherEnvironment if this thread does not compute as the proofs say."""
    if differs():
        raise other_environment(name, width)
    words = []
    for argument in arguments:
        words += (argument, len(argument)) if isinstance(argument, ctypes.Array) else (argument,)
    return library()[name + width.ending](*words)
