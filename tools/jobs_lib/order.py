"""`jobs sort` and `jobs diff --by-tangent`: records that hold a tangent in a fixed order, so that two
files with the same shots in another order can be compared.
"""
import sys

from .diff import DIFFERENT, EQUAL, Report, differing, kind
from .layout import ANSWER, JOB
from .records import load, name_of, scan, walk
from .terminal import Failure, count

WITH_TANGENT = ("EX", "PA")  # their seven numbers from phi to sigma stand first
TANGENT, SIGN, ALL_BITS = 7, 1 << 63, (1 << 64) - 1


def key(bits):
    """Patterns in IEEE 754's totalOrder have keys in the order of whole numbers."""
    return ALL_BITS - bits if bits & SIGN else bits + SIGN


class Shot:
    """A record that holds a tangent: its number in the file, its layout and bytes."""

    def __init__(self, number, data, at, layout):
        self.number, self.layout = number, layout
        self.bytes = bytes(data[at:at + layout.size])
        numbers = layout.bits.unpack_from(data, at + 2)
        # By the tangent, then by the mark and the other numbers, so that equal shots stand together.
        self.key = ([key(b) for b in numbers[:TANGENT]], layout.mark, self.bytes)


def load_whole(path, table, what):
    """A file's bytes and what a walk found, or Failure where it is damaged."""
    data = load(path)
    found = scan(data, table, "reading")
    if found.damages:
        damage = found.damages[0]
        raise Failure(f"jobs: {name_of(path)}: byte {damage.at}: {damage.text}; expected a whole {what}")
    return data, found


def split_shots(data):
    """The records of a job file: those with a tangent, in its order; the others, as (number, bytes)."""
    shots, others = [], []
    for number, (at, layout) in enumerate(walk(data, JOB), 1):
        if layout.mark in WITH_TANGENT:
            shots.append(Shot(number, data, at, layout))
        else:
            others.append((number, bytes(data[at:at + layout.size])))
    return sorted(shots, key=lambda shot: shot.key), others


def sort(path):
    """The command: EX and PA records in order, in the places where such records stand."""
    data, _ = load_whole(path, JOB, "job file")
    shots, others = split_shots(data)
    kept, rest = dict(others), iter(shots)
    for number in range(1, len(shots) + len(others) + 1):
        sys.stdout.buffer.write(kept[number] if number in kept else next(rest).bytes)
    sys.stdout.buffer.flush()
    return EQUAL


# ---- two files with their answers

class AnsweredJob:
    """A job file and the answers to it."""

    def __init__(self, name, jobs, answers):
        self.name = name
        job, found = load_whole(jobs, JOB, "job file")
        self.data, answer_scan = load_whole(answers, ANSWER, "answer file")
        if found.records != answer_scan.records:
            raise Failure(f"jobs: {name_of(answers)} is not the answer to {name_of(jobs)}: "
                          f"{count(answer_scan.records, 'record')} for {count(found.records, 'record')}")
        self.answers = list(walk(self.data, ANSWER))
        self.shots, self.others = split_shots(job)

    def answer(self, number):
        return self.answers[number - 1]


def only_in(report, answered_job, number):
    report.count_record("missing")
    if report.should_print():
        report.out.add(f"record {number}  in {answered_job.name} alone")


def compare(old, before, new, after, report):
    """The answers to one shot, by its numbers in both files."""
    (old_at, first), (new_at, second) = old.answer(before), new.answer(after)
    if first is not second:
        report.different_marks(f"{before}/{after}", first.mark, kind(old.data, old_at, first),
                          kind(new.data, new_at, second))
    elif old.data[old_at:old_at + first.size] != new.data[new_at:new_at + first.size]:
        found = differing(first, old.data, old_at, new.data, new_at)
        report.changed(f"record {before}/{after}", first, found)


def matched(old, new):
    """Pairs of numbers of the same shot in both files, None where one has none; both lists of (key,
    number) rise."""
    i = j = 0
    while i < len(old) or j < len(new):
        if j == len(new) or i < len(old) and old[i][0] < new[j][0]:
            yield old[i][1], None
            i += 1
        elif i == len(old) or new[j][0] < old[i][0]:
            yield None, new[j][1]
            j += 1
        else:
            yield old[i][1], new[j][1]
            i, j = i + 1, j + 1


def paired(old, new):
    """The shots by their tangents; then the other records, first to first, the same or alone."""
    yield from matched(*([(shot.key, shot.number) for shot in answered_job.shots] for answered_job in (old, new)))
    longest = max(len(old.others), len(new.others))
    for i in range(longest):
        first, second = (answered_job.others[i] if i < len(answered_job.others) else (None, None)
                         for answered_job in (old, new))
        if first[1] == second[1]:
            yield first[0], second[0]
        else:
            yield from ((number, None) for number in first[:1] if number)
            yield from ((None, number) for number in second[:1] if number)


def diff_by_tangent(paths, limit):
    """The command: 0 where every record is in both files and has the same answer, else 1."""
    old, new = AnsweredJob("OLD", *paths[:2]), AnsweredJob("NEW", *paths[2:])
    report, same = Report(limit), 0
    for before, after in paired(old, new):
        if after is None:
            only_in(report, old, before)
        elif before is None:
            only_in(report, new, after)
        else:
            same += 1
            compare(old, before, new, after, report)
    report.out.add(*report.summary())
    ending = "" if report.differences else ", equally answered"
    report.out.add(f"in both: {count(same, 'record')}{ending}")
    report.out.flush()
    return DIFFERENT if report.differences else EQUAL
