"""The order of tangents from each language: the bare calls, the package and the Rust crate against the standard's cases
on whole numbers."""
import array
import ctypes
import struct
import tempfile

import sim3
from .common import run, rust_program, same
from order_lib import samples
from order_lib.exact import compare, sort
from sim3 import raw

PAIRS, LISTS = 300, 40


def words_of(words):
    return (ctypes.c_uint64 * len(words))(*words)


def pairs_in_python():
    for a, b in samples.pairs("bindings", PAIRS):
        out = (ctypes.c_int64 * 1)(99)
        same(raw.call("compare_tangents", words_of(a), words_of(b), out), 0, "sim3_compare_tangents")
        same(out[0], compare(a, b), f"the order of {a} and {b}")
        same(sim3.compare_tangents(array.array("Q", a), array.array("Q", b)), compare(a, b),
             "sim3.compare_tangents of patterns")


def lists_in_python():
    for words in samples.lists("bindings", LISTS):
        status_expected, sorted_expected = sort(words)
        buffer = words_of(words)
        same(raw.call("sort_tangents", buffer), status_expected, f"sim3_sort_tangents of {len(words)} numbers")
        same(list(buffer), sorted_expected, f"what a list of {len(words)} numbers then holds")
        given = array.array("Q", words)
        try:
            same(list(sim3.sort_tangents(given)), sorted_expected, "sim3.sort_tangents of patterns")
            same(status_expected, 0, "refusal")
        except sim3.Refusal as refusal:
            same(refusal.number, status_expected, "number of the refusal")
        same(list(given), words, "the list that was handed in")


def numbers_in_python():
    """Numbers go as their patterns, and come back as numbers; a NaN of a buffer keeps its bits."""
    tau = [0.5, -0.0, 1, 2.0, 3.0, 4.0, -1.0]
    same(sim3.compare_tangents(tau, [0.5, 0.0, *tau[2:]]), -1, "-0 against 0")
    same(sim3.compare_tangents(tau, tuple(tau)), 0, "a tangent against itself")
    same(list(sim3.sort_tangents([2.0, *tau[1:], *tau])), [*tau, 2.0, *tau[1:]], "two tangents")
    words = [0xFFF8_0000_0000_0001, 0x7FF0_0000_0000_0001] + [0] * 5
    doubles = array.array("d", struct.pack("<7Q", *words) + struct.pack("<7Q", *reversed(words)))
    same(struct.unpack("<14Q", sim3.sort_tangents(doubles).tobytes()), (*words, *reversed(words)),
         "NaNs of a buffer of doubles")


def lengths():
    """Every other length is refused by 100, and nothing is written."""
    for place in range(3):
        for count in (0, 1, 6, 7, 8, 1000):
            counts = [7, 7, 1]
            counts[place] = count
            lists = [words_of([1] * counts[0]), words_of([1] * counts[1]),
                     (ctypes.c_int64 * counts[2])(*[77] * counts[2])]
            number = 0 if counts == [7, 7, 1] else 100
            same(raw.call("compare_tangents", *lists), number, f"sim3_compare_tangents with lists of {counts}")
            assert not number or set(lists[2]) <= {77}, f"lists of {counts}: refused, but a number was written"


def in_words():
    for wrong, part in (([0.0] * 8, "8 numbers"), ([0.0] * 7175, "7,175 numbers")):
        try:
            answer = sim3.sort_tangents(wrong)
        except sim3.Refusal as refusal:
            assert "sim3.sort_tangents: refusal 5" in str(refusal) and part in str(refusal), str(refusal)
        else:
            raise AssertionError(f"sim3.sort_tangents answered {answer}")
    for wrong in ([0.0] * 6, array.array("Q", [0] * 8)):
        try:
            answer = sim3.compare_tangents([0.0] * 7, wrong)
        except sim3.Refusal as refusal:
            assert refusal.number == 100 and f"b has {len(wrong)} numbers; expected 7" in str(refusal), str(refusal)
        else:
            raise AssertionError(f"sim3.compare_tangents answered {answer}")
    for wrong in ("1234567", None, 7.0):
        try:
            answer = sim3.compare_tangents(wrong, [0.0] * 7)
        except TypeError as error:
            assert "sim3.compare_tangents: a is" in str(error), str(error)
        else:
            raise AssertionError(f"sim3.compare_tangents({wrong!r}, ..) answered {answer}")


def in_rust():
    pairs, lists = samples.pairs("bindings",
                                 PAIRS), [words for words in samples.lists("bindings", LISTS) if len(words) % 7 == 0]
    with tempfile.TemporaryDirectory() as work:
        program = rust_program("tests/bindings_lib/tangents.rs", work)
        output = run([program, "compare"], b"".join(struct.pack("<14Q", *a, *b) for a, b in pairs))
        same([order for order, in struct.iter_unpack("<q", output)], [compare(a, b) for a, b in pairs],
             "compare_tangents in Rust")
        output = run([program, "sort"], b"".join(struct.pack(f"<{len(words) + 1}Q", len(words), *words)
                                                 for words in lists))
    expected = b"".join(struct.pack(f"<{len(words) + 1}Q", status, *sorted_expected) for words in lists
                        for status, sorted_expected in [sort(words)])
    same(output, expected, "sort_tangents in Rust")


TESTS = [pairs_in_python, lists_in_python, numbers_in_python, lengths, in_words, in_rust]
