"""The C functions that no mark reaches against the Rust's stored answers: the lists of library calls, in judge-lib's
format (oracle/README.md). The records have no frames: all are zeros here, and frames.py tries others."""
import collections
import struct

from .common import ROOT, compare, output_size, packed, same
from sim3 import raw

LISTS = ROOT / "tests/calls/lists"

# The function of an id, and which of the record's numbers it reads: (first, last), all where it is not said.
CALLS = {
    80: ("mul_inv", None), 81: ("inv_mul", None), 82: ("act_many", None), 83: ("act_each", None),
    84: ("act_jacobians_right", None), 85: ("act_jacobians_left", None), 86: ("adjoint", None),
    95: ("compose_jacobians_right", ((8, 17),)),  # of x, y, down: y and down
    96: ("compose_jacobians_left", ((0, 8), (16, 17))),  # of x, y, up: x and up
    97: ("inverse_jacobian_right", None), 98: ("inverse_jacobian_left", None), 102: ("renormalize", None),
}
TWO_POSES_AND_A_NUMBER = 17
POINTS_HEAD = 9  # pose and up, before the count of the points' numbers


def record(data, at, name, reads):
    """The numbers that a function takes from the record behind the id at `at`, and the place behind the record."""
    start = at + 1
    if name in ("act_many", "act_each"):
        head = data[start:start + 8 * POINTS_HEAD]
        points = start + 8 * POINTS_HEAD + 8
        count, = struct.unpack_from("<Q", data, points - 8)
        return head + data[points:points + 8 * count], points + 8 * count
    takes = raw.FUNCTIONS[name].takes
    sizes = (1 if k == raw.NUMBER else raw.KINDS[k][0] for _, k in takes if k != raw.FRAMES)
    count = TWO_POSES_AND_A_NUMBER if reads else sum(sizes)
    numbers = data[start:start + 8 * count]
    assert len(numbers) == 8 * count, f"a record of sim3_{name} is cut, at byte {at}"
    if reads:
        numbers_read = b"".join(numbers[8 * first:8 * last] for first, last in reads)
        return numbers_read, start + 8 * count
    return numbers, start + 8 * count


def answer_size(name, data):
    """The bytes of an answer that is no refusal, for the bytes of its function's arguments."""
    gives = raw.FUNCTIONS[name].gives
    if raw.POINTS in gives:
        return len(data) - 8 * POINTS_HEAD
    return 8 * (output_size(gives) or raw.KINDS["pose"][0])


def compare_file(path, seen):
    """Every record of one file; a file of functions that are none of the C library's is passed over."""
    calls, answers = path.read_bytes(), path.with_suffix(".out").read_bytes()
    at, answer_at, number = 0, 0, 0
    while at < len(calls):
        number += 1
        if calls[at] not in CALLS:
            assert number == 1, f"{path.name}, record {number}: id {calls[at]} among others that are called"
            return
        assert answer_at < len(answers), f"{path.name}, record {number} has no stored answer"
        identity, refusal = calls[at], answers[answer_at]
        name, reads = CALLS[identity]
        data, at = record(calls, at, name, reads)
        width = 0 if refusal else answer_size(name, data)
        answer = answers[answer_at + 1:answer_at + 1 + width]
        frames = packed([0, 0]) if raw.FRAMES in raw.FUNCTIONS[name].gives else b""
        compare(f"{path.name}, record {number}", name, data, refusal, answer + frames)
        answer_at += 1 + width
        seen[identity] += 1
    same(answer_at, len(answers), f"{path.name}: bytes of answers to these records")


def stored_lists():
    seen = collections.Counter()
    for path in sorted(LISTS.glob("*.in")):
        compare_file(path, seen)
    missing = [identity for identity in CALLS if not seen[identity]]
    assert not missing, f"no records of the ids {missing} in tests/calls/lists"


TESTS = [stored_lists]
