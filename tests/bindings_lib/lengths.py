"""Wrong lengths and other refusals of every C function at both widths, at the bare calls: the number, and that nothing
is written."""
import ctypes
import functools
import struct

from .common import BITS, UNWRITTEN, frame_list, output_lists, same, sentinels
from sim3 import raw
from sim3.widths import WIDTHS

POINTS_LENGTH, FRAMES, LIST_LENGTH = 5, 9, 100
MOST = 65_535


def valid_arguments(name, width, points=6):
    """Arguments of the right lengths, by name, `out` and `out_frames` last. Numbers and frames are 1, so that nothing
    but a length is refused."""
    signature = raw.FUNCTIONS[name]
    found = {}
    for argument, kind in signature.takes:
        count = points if kind == raw.POINTS else 1 if kind == raw.NUMBER else raw.KINDS[kind][0]
        if kind == raw.FRAMES:
            found[argument] = frame_list([1] * count)
        else:
            found[argument] = 1.0 if kind == raw.NUMBER else ones(count, width)
    return {**found, **dict(zip(("out", "out_frames"), output_lists(name, points, width) if signature.gives else ()))}


def ones(count, width):
    return (width.number * count)(*[1.0] * count)


def wrong_list(argument, count, width):
    """A list of another length in an argument's place."""
    if argument.endswith("frames"):
        return frame_list([UNWRITTEN[0] if argument == "out_frames" else 1] * count)
    return sentinels(count, width) if argument == "out" else ones(count, width)


def check_refused(name, width, arguments, number, what):
    """Calls, and holds the answer to a refusal that has written nothing."""
    lists = {argument: x for argument, x in arguments.items() if isinstance(x, ctypes.Array)}
    before = {argument: bytes(x) for argument, x in lists.items()}
    same(call(name, width, arguments), number, f"sim3_{name}{width.ending}, {what}")
    same({argument: bytes(x) for argument, x in lists.items()}, before,
         f"sim3_{name}{width.ending}, {what}: refused, but a number was written")


def call(name, width, arguments):
    return raw.call(name, *arguments.values(), width=width)


def at_both_widths(test):
    """A test of one width, as one of both."""
    @functools.wraps(test)
    def run():
        for width in WIDTHS:
            test(width)
    return run


@at_both_widths
def right_lengths(width):
    """What the other tests change by one thing is answered as it stands."""
    for name in raw.FUNCTIONS:
        arguments = valid_arguments(name, width)
        same(call(name, width, arguments), 0, f"sim3_{name}{width.ending}")
        if "out" in arguments:
            code, *_, sentinel = BITS[width]
            words = struct.unpack(f"<{len(arguments['out'])}{code}", bytes(arguments["out"]))
            assert sentinel not in words, f"sim3_{name}{width.ending} left a number of out unwritten"
        if "out_frames" in arguments:
            same(list(arguments["out_frames"]), [1, 1], f"frames of sim3_{name}")


@at_both_widths
def wrong_lengths(width):
    """Each list of each function with every other length up to three more than its own, and some beyond."""
    tried = 0
    for name, signature in raw.FUNCTIONS.items():
        kinds = dict(signature.takes)
        for argument in [a for a in valid_arguments(name, width) if kinds.get(a) not in (raw.NUMBER, raw.POINTS)]:
            right_length = len(valid_arguments(name, width)[argument])
            number = POINTS_LENGTH if argument == "out" and raw.POINTS in signature.gives else LIST_LENGTH
            for count in [c for c in (*range(right_length + 4), 2 * right_length, 1000) if c != right_length]:
                arguments = valid_arguments(name, width)
                arguments[argument] = wrong_list(argument, count, width)
                check_refused(name, width, arguments, number, f"{argument} of {count} numbers")
                tried += 1
    assert tried > 500, f"{tried} wrong lengths tried; expected more than 500"


@at_both_widths
def points_lengths(width):
    """No multiple of three, and too long; the longest and the empty list are answered."""
    for name in ("act_many", "act_each"):
        for count in (1, 2, 4, 5, 7, 64, MOST - 1, MOST + 1, MOST + 3, 100_000):
            check_refused(name, width, valid_arguments(name, width, count), POINTS_LENGTH, f"{count} numbers")
        for count in (0, 3, MOST):
            same(call(name, width, valid_arguments(name, width, count)), 0,
                 f"sim3_{name}{width.ending}, {count} numbers")


@at_both_widths
def numbers_that_are_refused(width):
    for name in ("scaled_pair", "coeffs_armed", "armed_pair"):
        for z in (-1.0, -least(width), float("-inf")):
            check_refused(name, width, {**valid_arguments(name, width), "z": z}, 1, f"z = {z}")
        for z in (0.0, -0.0, float("nan"), float("inf")):
            same(call(name, width, {**valid_arguments(name, width), "z": z}), 0, f"sim3_{name}{width.ending}, z = {z}")
    for e in (0.0, -0.0):
        check_refused("block_inverse", width, {**valid_arguments("block_inverse", width), "j": block(e, width)}, 2,
                      f"e = {e}")
    for e in (least(width), float("nan"), float("inf")):
        same(call("block_inverse", width, {**valid_arguments("block_inverse", width), "j": block(e, width)}), 0,
             f"sim3_block_inverse, e = {e}")


def least(width):
    """The least number above zero."""
    return 2.0 ** -1074 if width.size == 8 else 2.0 ** -149


def block(e, width):
    found = ones(31, width)
    found[30] = e
    return found


@at_both_widths
def order_of_refusals(width):
    """The inputs' lengths, then the function's own refusal, then the length of `out`."""
    pair, inverse, many = (valid_arguments(name, width) for name in ("scaled_pair", "block_inverse", "act_many"))
    check_refused("scaled_pair", width, {**pair, "z": -1.0, "values": ones(9, width)}, LIST_LENGTH,
                  "z = -1 and nine values")
    check_refused("scaled_pair", width, {**pair, "z": -1.0, "out": sentinels(19, width)}, 1, "z = -1 and a short out")
    check_refused("block_inverse", width, {**inverse, "j": block(0.0, width), "out": sentinels(30, width)}, 2,
                  "e = 0 and a short out")
    for name in ("mul", "mul_inv", "inv_mul"):
        mismatched = {**valid_arguments(name, width), "x_frames": frame_list([1, 2]), "y_frames": frame_list([3, 4])}
        check_refused(name, width, {**mismatched, "x": ones(7, width)}, LIST_LENGTH, "frames apart and a short x")
        check_refused(name, width, {**mismatched, "y_frames": frame_list([3])}, LIST_LENGTH,
                      "frames apart, one of y's missing")
        check_refused(name, width, {**mismatched, "out": sentinels(7, width)}, FRAMES, "frames apart and a short out")
        check_refused(name, width, {**mismatched, "out_frames": frame_list([])}, FRAMES,
                      "frames apart and no out_frames")
    check_refused("act_many", width, {**many, "x": ones(7, width), "pts": ones(7, width)}, LIST_LENGTH,
                  "a short pose and seven numbers of points")


TESTS = [right_lengths, wrong_lengths, points_lengths, numbers_that_are_refused, order_of_refusals]
