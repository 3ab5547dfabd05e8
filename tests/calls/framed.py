"""The functions of poses with frames: their numbers are those of the functions without, and their frames are the
request's.

A record without frames comes from the stored lists. With some frames behind it, it must be answered with the same
numbers and the frames that the rules give, or be refused by 9.
"""
import itertools
import struct

from functions import FUNCTIONS, list_name
from records import BY_ID, difference, walk

FRAMES_APART = 9
# frames that agree in one byte and differ in the other, neighbours, and the ends
NUMBERS = (0, 1, 255, 256, 257, 65_535)

# By the id of a function of poses: that of the same function without frames, the stored list that has its records, and
# the numbers of these that it takes.
PLAIN = {
    210: (None, 102, (0, 8)), 211: (101, 101, (0, 0)), 212: (200, 99, (9, 26)), 213: (201, 80, (0, 17)),
    214: (202, 98, (0, 9)),
    215: (80, 80, (0, 17)), 216: (81, 81, (0, 17)), 217: (99, 99, (0, 26)), 218: (100, 100, (0, 25)),
    219: (102, 102, (0, 8)),
    220: (92, 92, (0, 26)),
}


def expected_frames(id, x, y):
    """The frames of the answer, or None where it is refused; x and y are from and to of the first and of the other
    pose."""
    if id == 214:
        return x[1], x[0]
    if id == 213:
        return (y[0], x[1]) if x[0] == y[1] else None
    if id == 215:
        return (y[1], x[1]) if x[0] == y[0] else None
    if id == 216:
        return (x[0], y[0]) if x[1] == y[1] else None
    return x


def functions():
    return [f for f in FUNCTIONS if f.id in PLAIN]


def stored(id, list_id, taken, width):
    """The numbers of records without frames, and the stored answers' numbers where the list is the same function's."""
    data, answers, at = *((width.lists / f"{list_name(BY_ID[list_id])}.{end}").read_bytes() for end in ("in", "out")), 0
    for _, start, end, count in walk(data, width):
        numbers = answers[at + 1:at + 1 + width.size * count]
        yield data[start + 1 + width.size * taken[0]:start + 1
                   + width.size * taken[1]], numbers if id == list_id else None
        at += 1 + width.size * count


def plain(f, replay, width):
    """Records without frames with the numbers of their answers."""
    id, list_id, taken = PLAIN[f.id]
    found = list(stored(id, list_id, taken, width))
    if id is None:  # from_parts: the numbers themselves, every NaN the one that is written
        return [(record, canonical_nans(record, width)) for record, _ in found]
    if id == list_id:
        return found
    output = replay(b"".join(bytes([id]) + record for record, _ in found)).stdout
    pose = 1 + 8 * width.size
    return [(record, output[pose * i + 1:pose * (i + 1)]) for i, (record, _) in enumerate(found)]


def canonical_nans(data, width):
    """Numbers as they are written: every NaN is the one."""
    pieces = [data[i:i + width.size] for i in range(0, len(data), width.size)]
    return b"".join(struct.pack("<" + width.bits, width.nan) if x != x else piece for piece in pieces
                    for x in struct.unpack("<" + width.number, piece))


def failure(f, replay, width):
    """What is wrong with a function's answers, or None."""
    two = sum(p.kind == "frame" for p in f.takes) == 4
    frames = list(itertools.product(NUMBERS, repeat=4 if two else 2))
    records_in, answers_in, refused = b"", b"", 0
    records = plain(f, replay, width)
    for i, words in enumerate(frames):
        record, numbers = records[i % len(records)]
        frames_expected = expected_frames(f.id, words[:2], words[2:])
        records_in += bytes([f.id]) + record + struct.pack(f"<{len(words)}Q", *words)
        if frames_expected is None:
            answers_in += bytes([FRAMES_APART])
            refused += 1
        else:
            answers_in += b"\0" + numbers + struct.pack(f"<2{width.number}", *frames_expected)
    if (refused > 0) != (BY_ID[f.id].answer is not None):
        return f"{refused} of {len(frames)} records are refused"
    result = replay(records_in)
    if result.returncode:
        return f"replay stopped with status {result.returncode}: {result.stderr.decode().strip()}"
    return difference(records_in, answers_in, result.stdout, width)
