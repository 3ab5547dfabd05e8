"""A Python process that loads a library linked with -ffast-math, whose start-up code sets flushing in the thread that
loads it."""
import subprocess
import sys

from bindings_lib.common import Skipped, run, same
from .common import HERE, fast_library

CORRECT, REGISTER = "01000000000000002be6708b68120000", "9fc0"
INSIDE = {"inside the guard": CORRECT, "a thread of the guard": CORRECT}
ALL_LINES = {"the first thread": REGISTER, "a thread of the first": REGISTER, **INSIDE, "after the guard": REGISTER}
EXPECTED = {
    "before": ALL_LINES,
    "after": {"before it": CORRECT, **ALL_LINES},
    "thread": {"the thread that loads it": REGISTER, "the first thread": CORRECT, "a thread of the first": CORRECT,
               **INSIDE, "after the guard": CORRECT},
}
CHECK_FLUSHING = "import ctypes, sys; ctypes.CDLL(sys.argv[1]); sys.exit(5e-324 * 1.0 != 0)"


def loaded(when):
    """What a process says that loads the library then; Skipped where the compiler links no such start-up code, as not
    all do."""
    if subprocess.run([sys.executable, "-c", CHECK_FLUSHING, fast_library()]).returncode:
        raise Skipped("the C compiler links no start-up code into a shared library with -ffast-math")
    output = run([sys.executable, "-B", HERE / "load_library.py", when, fast_library()]).decode()
    same(dict(line.split(": ") for line in output.splitlines()), EXPECTED[when], f"a library loaded {when}")


def before_import():
    loaded("before")


def after_import():
    loaded("after")


def in_a_second_thread():
    loaded("thread")


TESTS = [before_import, after_import, in_a_second_thread]
