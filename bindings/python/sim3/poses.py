"""Poses with their frames, in Python and for the C functions."""
import array
import collections.abc
import ctypes
import operator
import struct
from typing import NamedTuple, Sequence

from .numbers import TEXT, of_sequence
from .raw import KINDS
from .refusals import wrong_length
from .widths import DOUBLE

MOST_FRAME = 65_535
FRAMES = struct.Struct("HH")  # the list of a pose's frames
EXPECTED = f"a whole number from 0 to {MOST_FRAME:,}"


def uint16(where, x, what):
    """A number of 16 bits."""
    try:
        found = operator.index(x)
    except TypeError:
        raise TypeError(f"{where} is {type(x).__name__}; expected {what}, {EXPECTED}") from None
    if not 0 <= found <= MOST_FRAME:
        raise OverflowError(f"{where} is {found:,}; expected {what}, {EXPECTED}")
    return found


def frame(where, x):
    """A frame number."""
    return uint16(where, x, "a frame")


def frames(where, from_, to):
    """The list of a pose's frames."""
    return (ctypes.c_uint16 * 2)(frame(where + "from_", from_), frame(where + "to", to))


class Fields(NamedTuple):
    """The fields of a pose."""

    numbers: Sequence[float]
    from_: int
    to: int


class Pose(Fields):
    """A pose, which maps points of the frame `from_` to points of the frame `to`. `numbers` are the
    quaternion w x y z, the translation x y z and sigma; a frame is a whole number from 0 to 65,535. What is none of
    that is refused here: TypeError, OverflowError for a frame, and Refusal 100 for another count of numbers."""

    __slots__ = ()

    def __new__(cls, numbers: Sequence[float], from_: int, to: int):
        frame("sim3.Pose: from_", from_)
        frame("sim3.Pose: to", to)
        return super().__new__(cls, check_eight(numbers), from_, to)


def answered_pose(numbers, from_, to):
    """A Pose of numbers and frames from the engine, unchecked."""
    return tuple.__new__(Pose, (numbers, from_, to))


def check_eight(x):
    """x itself, if it holds eight numbers."""
    try:
        view = memoryview(x)
    except TypeError:
        view = None
    if view is not None and view.format.lstrip("<=@") in ("d", "f"):
        count = view.nbytes // view.itemsize
    elif isinstance(x, (array.array, collections.abc.Sequence)) and not isinstance(x, TEXT):
        count = len(of_sequence("sim3.Pose: numbers", x, DOUBLE))
    else:
        raise TypeError(f"sim3.Pose: numbers is {type(x).__name__}; expected eight: a list, a tuple, array('d') or "
                        "another buffer of numbers")
    if count != KINDS["pose"][0]:
        raise wrong_length("Pose", "numbers", "pose", count)
    return x


def numbers_of(x):
    """The eight numbers of a pose, for a function that reads no frame and also takes them alone."""
    return x.numbers if isinstance(x, Pose) else x


def require_pose(where, x):
    """x itself, if it is a Pose; else TypeError."""
    if not isinstance(x, Pose):
        raise TypeError(f"{where} is {type(x).__name__}; expected a sim3.Pose, "
                        "whose fields are numbers, from_ and to")
    return x
