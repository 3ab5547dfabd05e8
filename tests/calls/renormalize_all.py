"""Lists of poses that are lent to running::renormalize_all: every quaternion of the list is one Newton step further,
computed here from the stored bytes; its other numbers, its frames and the poses behind the list are as they were, to
the bit.

A program does it, renormalize_all.txt, and not a wrapper: an exported function is lent no struct of the port. It is a
test driver without a proof of its own, and rt takes no file of Rattle outside the listed crates, so it is kept as text
and written as main.rt into a repository of its own. `rt try` runs it there over the crates' sources: on an interpreter,
and compiled with checks. No number of Rattle is taken from a NaN's bits: the program reads any as the NaN, and writes
the job's. So whether a NaN that is not computed keeps its bits is asked of the C function, on the same lists without
their frames.
"""
import ctypes
import pathlib
import random
import re
import shutil
import struct
import subprocess
import tempfile

import scratch

NAME = "renormalize_all"
USES = "ieee linalg so3 sim3 frames running wire".split()
STEPS = 200_000_000  # of the interpreter, for one run
LIBRARY = scratch.TOP / "target/bindings/libsim3.so"

POSE = struct.Struct("<8Q2H")  # quaternion, translation and sigma by their bits; from and to
MOST = 48                      # poses of the program's array; the list is the first part of it
LENGTHS = (0, 1, 2, 3, 17, MOST)
SEED = 15

# With the sign and without: zeros, units, subnormals, the ends of the finite numbers, infinities; and NaNs, quiet and
# signaling, with payloads.
NAN = 0x7FF8000000000000
NUMBERS = [sign << 63 | word for sign in (0, 1) for word in (
    0, 0x3FF0000000000000, 1, 0x000FFFFFFFFFFFFF, 0x0010000000000000, 0x7FEFFFFFFFFFFFFF, 0x7FF0000000000000)]
NANS = [sign << 63 | word for sign in (0, 1)
        for word in (NAN, 0x7FF8000000000123, 0x7FFFFFFFFFFFFFFF, 0x7FF0000000000001, 0x7FF4000000000AB0)]
FRAMES = (0, 1, 255, 256, 65_535)


def bits(x):
    return struct.unpack("<Q", struct.pack("<d", x))[0]


def value(word):
    return struct.unpack("<d", struct.pack("<Q", word))[0]


def is_nan(word):
    return value(word) != value(word)


def number(draw, special):
    """The bits of a special number, of any that is no NaN, or of one as a pose has it."""
    drawn = draw.choice((lambda: draw.choice(special), lambda: draw.getrandbits(64),
                         lambda: bits(draw.uniform(-2, 2))))()
    return drawn if drawn in special or not is_nan(drawn) else 0


def pose(draw, special):
    quaternion = [number(draw, special) if draw.randrange(3) == 0 else bits(draw.gauss(0, 0.6)) for _ in range(4)]
    frames = [draw.choice(FRAMES) if draw.randrange(2) else draw.getrandbits(16) for _ in range(2)]
    return (*quaternion, *(number(draw, special) for _ in range(4)), *frames)


def newton_step(x):
    """A pose with its quaternion one Newton step nearer to length 1, in the scope's order of operations."""
    w, i, j, k = map(value, x[:4])
    factor = (3.0 - (w * w + i * i + j * j + k * k)) * 0.5
    return (*map(bits, (w * factor, i * factor, j * factor, k * factor)), *x[4:])


def as_written(x):
    """A pose as the program writes it."""
    return POSE.pack(*(NAN if is_nan(word) else word for word in x[:8]), *x[8:])


def expected_numbers(x, computed):
    """A pose's numbers as the C function leaves them; of a NaN that is computed nothing is said but that."""
    return (*(NAN if computed and is_nan(word) else word for word in x[:4]), *x[4:8])


def arrays(special):
    """The length of each list, and the array of which it is the first part: first each special number everywhere in a
    pose."""
    draw = random.Random(SEED)
    yield MOST, [(*[special[i % len(special)]] * 8, i, 65_535 - i) for i in range(MOST)]
    for length in LENGTHS:
        yield length, [pose(draw, special) for _ in range(MOST)]


def make_crate(repository):
    """The program in a repository of its own, over the sources of the crates that it rests on; gives its folder."""
    listed, crate = scratch.read_crates()[0], repository / "crates" / NAME
    scratch.copy_crates(repository, USES)
    lines = [*(listed[name] for name in scratch.dependencies(USES)), f"{NAME}: {' '.join(USES)}"]
    (repository / "crates.txt").write_text("".join(f"{line}\n" for line in lines), encoding="utf-8")
    (crate / "src").mkdir(parents=True)
    shutil.copyfile(pathlib.Path(__file__).parent / f"{NAME}.txt", crate / "src/main.rt")
    return crate


def program_failure(crate, special):
    """What is wrong with the program's output for the arrays of some special numbers, or None."""
    given = list(arrays(special))
    stdin = b"".join(bytes([n]) + b"".join(POSE.pack(*x) for x in poses) for n, poses in given)
    expected = b"".join(as_written(x) for n, poses in given for x in (*map(newton_step, poses[:n]), *poses[n:]))
    result = subprocess.run(["rt", "try", "--steps", str(STEPS)], cwd=crate, input=stdin, capture_output=True)
    text = result.stderr.decode(errors="replace")
    if result.returncode or re.search(r"\brunners=1\b", text):
        return f"rt try ended with status {result.returncode}: {text[-2000:]}"
    if result.stdout != expected:
        at = next((i for i, (a, b) in enumerate(zip(result.stdout, expected)) if a != b),
                  min(len(result.stdout), len(expected)))
        return (f"{len(result.stdout)} bytes, of which byte {at} is the first wrong one, of "
                f"{len(expected)}")
    return None


def c_failure(special):
    """The same of the C function, which gets the numbers of the first poses of each array."""
    function = ctypes.CDLL(str(LIBRARY)).sim3_renormalize_all
    for n, poses in arrays(special):
        words = (ctypes.c_uint64 * (8 * MOST))(*(word for x in poses for word in x[:8]))
        status = function(words, ctypes.c_size_t(8 * n))
        found = [tuple(words[8 * i:8 * i + 8]) for i in range(MOST)]
        expected = [expected_numbers(newton_step(x), True) for x in poses[:n]]
        expected += [expected_numbers(x, False) for x in poses[n:]]
        if status or [expected_numbers(x, i < n) for i, x in enumerate(found)] != expected:
            return f"sim3_renormalize_all of {n} poses: status {status}, or a number is wrong"
    return None


def failure():
    """What is wrong with what the program writes and the C function leaves, or None."""
    with tempfile.TemporaryDirectory(prefix="sim3-lent-") as folder:
        crate = make_crate(pathlib.Path(folder).resolve())
        for what, special in (("numbers without a NaN", NUMBERS), ("NaNs too", NUMBERS + NANS)):
            found = program_failure(crate, special) or c_failure(special)
            if found:
                return f"on {what}: {found}"
    return None
