"""Running the tool and the job program, files to try, and comparing."""
import collections
import io
import os
import pathlib
import random
import struct
import subprocess
import sys
import tempfile

ROOT = pathlib.Path(__file__).resolve().parent.parent.parent
TOOL = ROOT / "tools" / "jobs"
PROGRAM = pathlib.Path(os.environ.get("SIM3_JOB") or ROOT / "target" / "bin" / "sim3_job")
WORK = tempfile.TemporaryDirectory()
sys.path.insert(0, str(TOOL.parent))

from jobs_lib.cli import main as tool_main
from jobs_lib.floats import DOUBLE, SINGLE
from jobs_lib.layout import ANSWER, COUNTED, DOUBLES, END, JOB, STATE, UNKNOWN, UINT16
from jobs_lib.records import walk

ONE, NAN, MINUS = 0x3FF0000000000000, DOUBLE.nan, 1 << 63
ONE32, NAN32, MINUS32 = 0x3F800000, SINGLE.nan, 1 << 31

# Numbers that are easily lost on the way through text, as bits.
ODD = [*map(DOUBLE.to_bits, (0.0, -0.0, 1.0, -1.5, 5e-324, 1.7976931348623157e308, float("inf"), float("-inf"), 0.1)),
       NAN, NAN | MINUS, 0x7FF0000000000001, 0x7FFFFFFFFFFFFFFF, 0x000FFFFFFFFFFFFF, ONE + 1]
ODD32 = [*map(SINGLE.to_bits,
              (0.0, -0.0, 1.0, -1.5, 1e-45, 3.4028235e38, float("inf"), float("-inf"), 0.1, 16777216.0)),
         NAN32, NAN32 | MINUS32, 0x7F800001, 0x7FFFFFFF, 0xFFA5BEEF, 0x007FFFFF, ONE32 + 1]


def with_program(test):
    """Marks a test that is skipped where the job program is not built."""
    test.with_program = True
    return test


def with_library(test):
    """Marks a test that is skipped where the shared library is not built."""
    test.with_library = True
    return test


def with_bulk(test):
    """Marks a test that is skipped where the tool's own library is not built."""
    test.with_bulk = True
    return test


def needs_bulk(test):
    return getattr(test, "with_bulk", False)


def needs_library(test):
    return getattr(test, "with_library", False)


def needs_program(test):
    return getattr(test, "with_program", False)


def jobs(*words, data=b"", status=0):
    """Standard output and messages of tools/jobs; its exit status must be the one given."""
    streams = sys.stdin, sys.stdout, sys.stderr
    sys.stdin, sys.stdout = (io.TextIOWrapper(io.BytesIO(some)) for some in (data, b""))
    sys.stderr = io.StringIO()
    try:
        try:
            found = tool_main([str(word) for word in words])
        except SystemExit as exit_:  # help, and wrong arguments
            found = exit_.code
        sys.stdout.flush()
        out, messages = sys.stdout.buffer.getvalue(), sys.stderr.getvalue()
    finally:
        sys.stdin, sys.stdout, sys.stderr = streams
    same(found, status, f"exit status of jobs {' '.join(map(str, words))} ({messages.strip()})")
    return out, messages


def makes_nothing(lines):
    """`jobs make` refuses each line with what is wrong and what is expected, and writes nothing."""
    for line, wrong, expected in lines:
        out, messages = jobs("make", data=f"{line}\n".encode(), status=2)
        same(out, b"", f"output for {line!r}")
        holds(messages, "(standard input):1: ", wrong, "expected", expected, "nothing was written")
        assert "older format" not in messages, messages


def program(data):
    """The job program's answer."""
    done = subprocess.run([PROGRAM], input=data, stdout=subprocess.PIPE)
    same(done.returncode, 0, f"exit status of {PROGRAM}")
    return done.stdout


def file(name, data):
    """A file with these bytes, for commands that take names."""
    path = pathlib.Path(WORK.name) / name
    path.write_bytes(data)
    return path


def same(found, expected, what):
    assert found == expected, f"{what}:\n  found    {found!r}\n  expected {expected!r}"


def holds(text, *parts):
    for part in parts:
        assert part in text, f"no {part!r} in:\n{text}"


def any_numbers(layout, source, frames):
    """The bits of ordinary and odd numbers, and any frames, for a record."""
    odd, width = (ODD32 if layout.width is SINGLE else ODD), layout.width
    return [frames.choice([0, 65535, frames.randrange(65536)]) if code == UINT16 else
            source.choice(list(names)) if names else
            source.choice(odd) if source.random() < 0.3 else width.to_bits(source.gauss(0, 10))
            for names, code in zip(layout.names, layout.codes)]


def records(table, seed, count, marks=DOUBLES):
    """Records of every mark of doubles in turn, or of those given, with ordinary and odd numbers and any frames."""
    source, frames, out = random.Random(seed), random.Random(-1 - seed), b""
    for number in range(count):
        layout = table[marks[number % len(marks)]]
        out += layout.mark.encode() + layout.bits.pack(*any_numbers(layout, source, frames))
    return out


class Ending(bytes):
    """ZZ and its counts. Behind answers its counts by mark are theirs; what was refused counts as CO."""

    def __radd__(self, data):
        marks = collections.Counter(layout.mark for _, layout in walk(data, ANSWER))
        marks["CO"] += marks.pop("NO", 0)
        by_mark = (marks[mark] for mark in (*COUNTED, UNKNOWN))
        return bytes(data) + self[:2] + END.numbers.pack(*struct.unpack_from("<4I", self, 2), *by_mark)


def end(begun, refused=0, unusable=0, **by_mark):
    """ZZ and its counts, those by mark as they are given, until it is put behind answers."""
    four = begun, begun - refused - unusable, refused, unusable
    return Ending(b"ZZ" + END.numbers.pack(*four, *(by_mark.get(mark, 0) for mark in (*COUNTED, UNKNOWN))))


def not_finite(data):
    """How many whole answers hold a NaN or an infinity, by their exponents, apart from the tool's own test."""
    found = 0
    for at, layout in walk(data, ANSWER):
        found += bool(places_not_finite(data, at, layout))
    return found


def places_not_finite(data, at, layout):
    """The places of a record's numbers that are a NaN or an infinity, by their exponents."""
    exponents = {"d": (52, 0x7FF), "f": (23, 0xFF)}
    numbers = zip(layout.bits.unpack_from(data, at + 2), layout.codes)
    return [i for i, (x, code) in enumerate(numbers) if code in exponents
            for shift, ones in [exponents[code]] if x >> shift & ones == ones]


def ended(data, refused=0):
    """Answers with the ZZ that fits them."""
    return data + end(sum(1 for _ in walk(data, ANSWER)), refused, not_finite(data))


EX_SIZE = ANSWER[b"EX"].size  # the first record of the answers below


SINGLES = [mark for mark in JOB if mark not in (*DOUBLES, *STATE)]


def answers(marks=DOUBLES):
    """A whole answer file: every mark of doubles once, or of those given, and a refusal."""
    return ended(records(ANSWER, 3, len(marks), marks) + b"NO\1", 1)


def answers_with(mark, field, bits):
    """The same with another number in a field of the one record of that mark; in singles if it is of those."""
    marks = SINGLES if mark.islower() else DOUBLES
    data, at = bytearray(answers(marks)), 0
    for layout in map(ANSWER.get, marks):
        if layout.mark == mark:
            place = layout.fields.index(field)
            at += 2 + struct.calcsize("<" + layout.codes[:place])
            size = struct.calcsize("<" + layout.codes[place])
            data[at:at + size] = bits.to_bytes(size, "little")
            return ended(bytes(data[:-END.size]), 1)
        at += layout.size
    raise KeyError(mark)
