"""From C and C++, and the library's own machine code."""
import ctypes
import re

from bindings_lib.common import compiler, run, same
from .common import HERE, PROVED, SHARED, STATIC, WORK, strict


def settings_in_c():
    program = f"{WORK.name}/settings"
    run([*strict("cc", "CC"), "-std=c99", "-o", program, HERE / "settings.c", STATIC])
    run([program])


def guard_in_cpp():
    program = f"{WORK.name}/guard"
    for standard in ("c++11", "c++17"):
        run([*strict("c++", "CXX"), f"-std={standard}", "-o", program, HERE / "guard.cpp", STATIC])
        run([program])


def functions():
    """The shared library's functions, each with its instructions."""
    text = run([compiler("objdump", None), "-d", "--no-show-raw-insn", SHARED]).decode()
    return {name: lines for name, lines in re.findall(r"^[0-9a-f]+ <([^>@]+)[^>]*>:\n((?:.+\n)*)", text, re.M)}


def products_are_not_worked_out():
    """The probe multiplies twice, whatever the compiler knows."""
    code = functions()["sim3_environment"]
    same(len(re.findall(r"\bv?mulsd\b", code)), 2, f"multiplications of sim3_environment:\n{code}")


def nothing_sets_it_but_the_guard():
    """No start-up code, as -ffast-math links it in, and no other function writes the register."""
    found = {name for name, code in functions().items() if re.search(r"\bv?ldmxcsr\b", code)}
    same(found, {"sim3_environment_enter", "sim3_environment_leave"}, "functions that write MXCSR")


def loading_sets_nothing():
    same(ctypes.PyDLL(str(SHARED)).sim3_environment_differs(), 0,
         f"bits of MXCSR other than {PROVED:04x} after libsim3.so was loaded")


TESTS = [settings_in_c, guard_in_cpp, products_are_not_worked_out, nothing_sets_it_but_the_guard, loading_sets_nothing]
