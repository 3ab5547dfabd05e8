"""Lists of points for the C functions: buffers of any shape whose rows are x y z, in pieces of the length that the C
functions take, and a list of the caller's for the answers."""
import array
import ctypes
import sys

from . import arrays, raw
from .numbers import ctypes_numbers, ctypes_over
from .refusals import MOST_NUMBERS, explained, out_length, points_length

PIECE = MOST_NUMBERS  # numbers of 21,845 points
SEQUENCES = (array.array, list, tuple)  # lists of numbers that go to C by way of an array


def view_of(x, width):
    """A view of a buffer of the width's numbers; None for anything else."""
    try:
        view = memoryview(x)
    except TypeError:
        return None
    return view if view.format in width.formats else None


def rows(where, view):
    """Raises TypeError unless a buffer is flat or has rows of three."""
    if view.ndim != 1 and (not view.ndim or view.shape[-1] != 3):
        raise TypeError(f"{where} has the shape {tuple(view.shape)}; expected (n, 3), or x y z of every point, flat")


def read(where, pts, width):
    """The numbers of the points as a ctypes array: those of a buffer without a copy, or a copy if there are gaps
    between them."""
    view = view_of(pts, width)
    if view is None:
        return ctypes_numbers(where, pts, width)
    rows(where, view)
    if view.c_contiguous:
        return ctypes_over(pts, view.nbytes // width.size, width)
    return (width.number * (view.nbytes // width.size)).from_buffer_copy(view.tobytes())


def new_list(pts, count, width):
    """A new list for the answers: an array of numpy of the same shape if pts is one, else an array."""
    numpy = sys.modules.get("numpy")
    if numpy is not None and isinstance(pts, numpy.ndarray):
        return numpy.empty(pts.shape, dtype=width.code)
    return array.array(width.code, bytes(width.size)) * count


def output_numbers(name, out, count, width):
    """The caller's list as a ctypes array over its own bytes."""
    where, view = f"{width.package}.{name}: out", view_of(out, width)
    if view is None:
        raise TypeError(f"{where} is {type(out).__name__}; expected array({width.code!r}) or another buffer of "
                        f"{width.word}s that can be written")
    rows(where, view)
    if view.readonly or not view.c_contiguous:
        raise TypeError(f"{where} is a buffer {'that cannot be written' if view.readonly else 'with gaps'}; "
                        f"expected {width.word}s without gaps that can be written")
    found = view.nbytes // width.size
    if found != count:
        raise out_length(name, found, count, width)
    view.release()  # so that who catches what follows can change the length of out
    numbers = (width.number * count).from_buffer(out) if count else (width.number * 0)()
    if count and ctypes.addressof(numbers) % width.size:
        raise TypeError(f"{where} stands across the places of {width.word}s; expected an array({width.code!r})")
    return numbers


def without_overlap(given, out):
    """The numbers of given, in a copy if they share bytes with out."""
    first, last = ctypes.addressof(given), ctypes.addressof(given) + ctypes.sizeof(given)
    begin, end = ctypes.addressof(out), ctypes.addressof(out) + ctypes.sizeof(out)
    return type(given).from_buffer_copy(given) if first < end and begin < last else given


def move_fast(name, x, up, pts):
    """The answer for doubles by the fast function, or None if an argument is not of the types that it takes."""
    numpy, fast = sys.modules.get("numpy"), arrays.fast_move()
    if fast is None:
        return None
    if numpy is not None and type(pts) is numpy.ndarray:
        answer = numpy.empty(pts.shape, dtype="d")
    elif type(pts) in SEQUENCES:
        try:
            pts = pts if type(pts) is array.array and pts.typecode == "d" else array.array("d", pts)
        except (TypeError, OverflowError):
            return None  # `move` says which of them is no number
        answer = array.array("d", pts)
    else:
        return None
    return answer if fast(name == "act_each", x, up, pts, answer) else None


def move(name, x, up, pts, out, width):
    """Every point moved by the C function of this name, in pieces; x is the pose's ctypes array."""
    if raw.differs():
        raise raw.other_environment(name, width)
    given = read(f"{width.package}.{name}: pts", pts, width)
    count = len(given)
    if count % 3:
        del given  # so that who catches the refusal can change the length of pts
        raise points_length(name, count, width)
    answer = new_list(pts, count, width) if out is None else out
    filled = output_numbers(name, answer, count, width)
    given = without_overlap(given, filled)
    begin, end = ctypes.addressof(given), ctypes.addressof(filled)
    for at in range(0, count or 1, PIECE):
        size, offset = min(PIECE, count - at), at * width.size
        refused = raw.fast_function(name + width.ending)(x, len(x), up, begin + offset, size, end + offset, size)
        if refused:
            raise explained(refused, name, {}, width)
    return answer
