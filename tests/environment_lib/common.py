"""The settings of MXCSR, and the shared libraries that set one when they are loaded."""
import functools
import tempfile

from bindings_lib.common import ROOT, compiler, run

PROVED = 0x1F80
SETTINGS = [PROVED | rounding | flushing for rounding in (0, 0x2000, 0x4000, 0x6000)
            for flushing in (0, 0x8000, 0x0040, 0x8040)]
TRAPS = [PROVED & ~(0x0080 << i) for i in range(6)]  # invalid, denormal, division by zero, overflow, underflow, inexact
STATIC, SHARED = ROOT / "target/bindings/libsim3.a", ROOT / "target/bindings/libsim3.so"
HERE = ROOT / "tests/environment_lib"
WORK = tempfile.TemporaryDirectory()


def strict(name, variable):
    """A compiler with its warnings as errors."""
    return [compiler(name, variable), "-O2", "-Wall", "-Wextra", "-Werror", f"-I{ROOT}/include", f"-I{ROOT}/bindings/c"]


@functools.lru_cache(maxsize=None)
def setting_library():
    """A library that sets MXCSR to the number in the environment variable MXCSR when it is loaded."""
    made = f"{WORK.name}/libsets.so"
    run([*strict("cc", "CC"), "-shared", "-fPIC", "-o", made, HERE / "set_mxcsr.c"])
    return made


@functools.lru_cache(maxsize=None)
def fast_library():
    """A library that does nothing, linked with -ffast-math."""
    made, source = f"{WORK.name}/libfast.so", f"{WORK.name}/fast.c"
    with open(source, "w", encoding="utf-8") as file:
        file.write("int nothing(void);\nint nothing(void) { return 0; }\n")
    run([*strict("cc", "CC"), "-ffast-math", "-shared", "-fPIC", "-o", made, source])
    return made
