"""Tangents in a fixed order: each number by IEEE 754's totalOrder, the first difference deciding. Numbers
go to C as their bit patterns, so NaNs with different bits differ, and none loses its bits."""
import array
import ctypes

from . import arrays, raw
from .hints import Buffer, Numbers
from .numbers import patterns
from .refusals import explained, refusal, wrong_length

TANGENT, MOST = raw.KINDS["tangent"][0], 7_168
def ctypes_over(words):
    """A ctypes array over the words' own bytes."""
    kind = ctypes.c_uint64 * len(words)
    return kind.from_buffer(words) if len(words) else kind()


def tangent(argument, x):
    """The seven patterns of a tangent."""
    words, _ = patterns(f"sim3.compare_tangents: {argument}", x)
    if len(words) != TANGENT:
        raise wrong_length("compare_tangents", argument, "tangent", len(words))
    return ctypes_over(words)


def compare_tangents(a: Numbers, b: Numbers) -> int:
    """-1 where the tangent a stands before b, 0 where all bits are the same, 1 where it stands after. Of arrays (n, 7),
    or one and a tangent for all rows, an array (n,) of these."""
    if arrays.is_rows(a, 2) or arrays.is_rows(b, 2):
        return arrays.compare_rows(a, b)
    out = (ctypes.c_int64 * 1)()
    refused = raw.call("compare_tangents", tangent("a", a), tangent("b", b), out)
    if refused:
        raise explained(refused, "compare_tangents", {})
    return out[0]


def sort(words):
    """Patterns of tangents put in order in their place, or Refusal."""
    refused = raw.call("sort_tangents", ctypes_over(words))
    if refused:
        raise refusal(refused, "sort_tangents",
                      f"tangents has {len(words):,} numbers; hand in seven of every tangent, flat, "
                      f"and at most {MOST:,} ({MOST // TANGENT:,} tangents) at once")


def sort_tangents(tangents: Numbers) -> Buffer:
    """The tangents of a flat list, seven numbers each, smallest first: array('d'), or array('Q') where
    patterns were handed in; of an array (n, 7), and of each list of an array (m, n, 7), one of the same shape.
    `tangents` stays as it is. Refusal 5 where it is no multiple of seven or longer than 7,168 numbers (1,024
    tangents)."""
    if arrays.is_rows(tangents, 2, 3):
        return arrays.sort_rows(tangents, sort)
    words, of_patterns = patterns("sim3.sort_tangents: tangents", tangents)
    sort(words)
    return words if of_patterns else array.array("d", words.tobytes())
