"""The two widths of the engine: doubles, and singles, which are C's float."""
import ctypes
from typing import Any, FrozenSet, NamedTuple


class Width(NamedTuple):
    """What a width's functions and numbers are called, and what its numbers are in C."""

    package: str  # in which the functions stand
    ending: str  # of the C functions' names
    word: str  # for a number
    code: str  # of array, struct and buffers
    number: Any  # of ctypes
    size: int  # in bytes
    formats: FrozenSet[str]  # of a buffer of such numbers, which may say their order; the engine is for x86-64


def formats(code):
    return frozenset(order + code for order in ("", "<", "=", "@"))


DOUBLE = Width("sim3", "", "double", "d", ctypes.c_double, 8, formats("d"))
SINGLE = Width("sim3.f32", "_f32", "single", "f", ctypes.c_float, 4, formats("f"))
WIDTHS = (DOUBLE, SINGLE)
