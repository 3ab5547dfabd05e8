"""The C functions against the Rust's stored answers of the job: every record of tests/runs and of the program's own
stored run."""
import collections
import struct

from .common import ROOT, compare, packed
from sim3.widths import WIDTHS
from jobs_lib.layout import ANSWER, JOB
from jobs_lib.records import walk

# The function that a mark calls, in small letters at f32; a record's numbers are its arguments in order, and its frames
# those of the poses. AR's four bytes are numbers here.
CALLS = {"EX": "exp", "CO": "scaled_pair", "PA": "block_pair", "AC": "act_each", "MU": "mul", "IN": "inverse",
         "JI": "block_inverse", "AR": "armed_pair"}
MARKS = [*CALLS, *(mark.lower() for mark in CALLS if mark != "AR")]
LEAST = 50  # records of each mark, fewer would be lost files


def runs():
    """Name, job file and answer file of each stored run."""
    for job in sorted((ROOT / "tests/runs").glob("*.in")):
        yield job.name, job.read_bytes(), job.with_suffix(".out").read_bytes()
    own = ROOT / "crates/sim3_job"
    yield "sim3_job/stdin", (own / "stdin").read_bytes(), (own / "stdout").read_bytes()


def width_of(layout):
    """The width of a record's numbers."""
    return next(width for width in WIDTHS if width.code == layout.width.code)


def split_numbers(layout, data):
    """The bytes of a record's or an answer's numbers, and its frames, two for each pose."""
    width = width_of(layout)
    numbers, frames, at = b"", [], 0
    for code in layout.codes:
        piece, = struct.unpack_from("<" + code, data, at)
        if code == "H":
            frames.append(piece)
        else:
            numbers += data[at:at + width.size] if code == width.code else packed([piece], width)
        at += struct.calcsize("<" + code)
    return numbers, list(zip(frames[::2], frames[1::2]))


def stored_records():
    seen, refused = collections.Counter(), collections.Counter()
    for name, job, answers in runs():
        records, answer_records = list(walk(job, JOB)), list(walk(answers, ANSWER))
        assert len(answer_records) >= len(records), f"{name}: {len(answer_records)} answers to {len(records)} records"
        for number, ((at, record), (answer_at, answer)) in enumerate(zip(records, answer_records), 1):
            if record.mark.upper() not in CALLS:
                continue  # the running join and the sheets, which have tests of their own
            width = width_of(record)
            data, frames = split_numbers(record, job[at + 2:at + record.size])
            numbers, answered_frames = split_numbers(answer, answers[answer_at + 2:answer_at + answer.size])
            refusal = answers[answer_at + 2] if answer.mark == "NO" else 0
            expected = numbers + b"".join(packed(pair, width) for pair in answered_frames)
            compare(f"{name}, record {number} ({record.mark})", CALLS[record.mark.upper()], data, refusal, expected,
                    frames, width)
            seen[record.mark] += 1
            refused[width, refusal] += 1
    for mark in MARKS:
        assert seen[mark] >= LEAST, f"{seen[mark]} records of {mark} in the stored runs; expected {LEAST} or more"
    for width in WIDTHS:
        for refusal in (1, 2, 9):
            assert refused[width, refusal], f"no record of {width.word}s with refusal {refusal} in the stored runs"


TESTS = [stored_records]
