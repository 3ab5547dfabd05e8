#!/usr/bin/env python3
"""Prints where two files of answers to library calls first differ: record, function, inputs and number.

usage: tests/calls/records.py RECORDS WANTED GOT [f32]     exit status 0 the same, 1 a difference (on standard output),
                                                           2 a file cannot be read
"""
import pathlib
import struct
import sys

sys.dont_write_bytecode = True
sys.path.insert(0, str(pathlib.Path(__file__).resolve().parent))
from functions import FUNCTIONS  # noqa: E402
from header import WORD, record_layout  # noqa: E402
from wrappers import is_list, output_count  # noqa: E402
from width import DOUBLE, WIDTHS  # noqa: E402

BY_ID = {f.id: f for f in FUNCTIONS}
MOST_SHOWN = 24  # numbers of a record or an answer that are printed


def whole_number(data, at):
    return struct.unpack_from("<Q", data, at)[0]


def walk(data, width=DOUBLE):
    """The records of a file: function, first byte, byte behind the last, and how many numbers its answer has."""
    at = 0
    while at < len(data):
        f = BY_ID.get(data[at])
        if f is None:
            raise ValueError(f"byte {at} is {data[at]}, the id of no function")
        end, count = at + 1 + record_layout(f, width)[2], output_count(f)
        if is_list(f):
            count = whole_number(data, end - WORD) if end <= len(data) else 0
            end += width.size * count
        if end > len(data):
            raise ValueError(f"the record of {f.id} {f.name} at byte {at} is cut")
        yield f, at, end, count
        at = end


def numbers_text(data, width):
    """The numbers of a piece as hexadecimal, cut where they are many. A whole number at f32 is two, the low half
    first."""
    found = [data[i:i + width.size][::-1].hex() for i in range(0, len(data) - len(data) % width.size, width.size)]
    more = [f"and {len(found) - MOST_SHOWN} more"] if len(found) > MOST_SHOWN else []
    return " ".join(found[:MOST_SHOWN] + more) or "nothing"


def answer_text(answer, width):
    """An answer in words."""
    if not answer:
        return "no answer"
    return f"refusal {answer[0]}" if answer[0] else numbers_text(answer[1:], width)


def differing_number(wanted, got, width):
    """Which number of two answers differs first."""
    if not got or wanted[0] or got[0]:
        return ""
    size = width.size
    for i in range(1, len(wanted), size):
        a, b = wanted[i:i + size], got[i:i + size]
        if a != b:
            return (f"\n  number {i // size + 1} of {len(wanted) // size}: wanted {numbers_text(a, width)}, got "
                    f"{numbers_text(b, width)}")
    return ""


def difference(data, wanted, got, width=DOUBLE):
    """Where the answers first differ, or None."""
    at = 0
    for number, (f, start, end, count) in enumerate(walk(data, width), 1):
        expected, actual = (answers[at:at + (1 + width.size * count if answers[at:at + 1] == b"\0" else 1)]
                            for answers in (wanted, got))
        if not expected:
            return f"record {number}, {f.id} {f.name}: no answer is stored for it"
        if expected != actual:
            head = f"record {number} (byte {start}) differs: {f.id} {f.name}"
            return (f"{head}\n  in     {numbers_text(data[start + 1:end], width)}\n  wanted "
                    f"{answer_text(expected, width)}\n  got    "
                    f"{answer_text(actual, width)}{differing_number(expected, actual, width)}")
        at += len(expected)
    if len(wanted) != at or len(got) != at:
        return f"the answers to all records are {at} bytes; wanted has {len(wanted)}, got has {len(got)}"
    return None


def main():
    if len(sys.argv) not in (4, 5) or sys.argv[4:] not in ([], ["f32"]):
        sys.exit("usage: tests/calls/records.py RECORDS WANTED GOT [f32]")
    try:
        found = difference(*(pathlib.Path(name).read_bytes() for name in sys.argv[1:4]),
                           WIDTHS[(sys.argv[4:] or ["f64"])[0]])
    except (OSError, ValueError) as error:
        print(f"records: {error}", file=sys.stderr)
        sys.exit(2)
    if found:
        print(found)
    sys.exit(1 if found else 0)


if __name__ == "__main__":
    main()
