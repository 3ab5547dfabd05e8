"""Numbers as the C functions take them. A buffer of the width's own numbers is passed without a copy or a loop in
Python; a list or tuple is copied once, and its numbers rounded to the width.
"""
import array
import collections.abc
import ctypes

from .widths import DOUBLE

TEXT = (str, bytes, bytearray, memoryview)
PATTERNS = ("Q", "<Q", "=Q", "@Q", "L", "=L", "@L")  # formats of a buffer of 64-bit patterns


def number(where, x, width=DOUBLE):
    """A number of the width."""
    try:
        return width.number(x).value
    except TypeError:
        raise TypeError(f"{where} is {type(x).__name__}; expected a number") from None
    except OverflowError:
        raise OverflowError(f"{where} is beyond the largest double") from None


def ctypes_over(buffer, count, width=DOUBLE):
    """A ctypes array over a buffer's own bytes; over a copy of read-only ones, which ctypes does not take, and of those
    that are not aligned."""
    numbers = width.number * count
    if count == 0:
        return numbers()  # an empty buffer may have no address
    if memoryview(buffer).readonly:
        return numbers.from_buffer_copy(buffer)
    view = numbers.from_buffer(buffer)
    return view if ctypes.addressof(view) % width.size == 0 else numbers.from_buffer_copy(buffer)


def of_sequence(where, x, width):
    """A sequence's numbers in an array."""
    try:
        return array.array(width.code, x)
    except (TypeError, OverflowError):
        for i, entry in enumerate(x):
            number(f"{where}[{i}]", entry, width)
        raise


def ctypes_numbers(where, x, width=DOUBLE):
    """The numbers of x as a ctypes array; TypeError if it holds none."""
    try:
        view = memoryview(x)
    except TypeError:
        view = None
    if view is not None and view.format in width.formats:
        if not view.c_contiguous:
            raise TypeError(f"{where} is a buffer with gaps; expected {width.word}s without gaps: copy it first")
        return ctypes_over(x, view.nbytes // width.size, width)
    if isinstance(x, (array.array, collections.abc.Sequence)) and not isinstance(x, TEXT):
        copy = of_sequence(where, x, width)
        return ctypes_over(copy, len(copy), width)
    what = type(x).__name__ + ("" if view is None else f", a buffer of format {view.format!r}")
    raise TypeError(f"{where} is {what}; expected a list, a tuple, array({width.code!r}) or another buffer of "
                    f"{width.word}s")


def patterns(where, x):
    """The bit patterns of x in a new array, and whether x holds patterns itself: a buffer of unsigned 64-bit integers,
    as array('Q'), does; anything else holds numbers."""
    try:
        view = memoryview(x)
    except TypeError:
        view = None
    of_patterns = view is not None and view.format in PATTERNS and view.itemsize == 8
    words = array.array("Q")
    words.frombytes(view.tobytes() if of_patterns else bytes(ctypes_numbers(where, x)))
    return words, of_patterns
