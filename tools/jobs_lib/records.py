"""Job and answer files as bytes: loading, iterating over records, describing damage."""
import collections
import mmap
import os
import stat
import sys
from typing import NamedTuple

from .bulk import bulk
from .layout import ANSWER, COUNTED, END, JOB, OLDER_ANSWER, OLDER_END, OLDER_JOB, TOTALS
from .terminal import Failure, Progress, count

STDIN = "(standard input)"
ZZ = END.mark.encode()
WINDOW = 1 << 21  # bytes scanned between two updates of the progress line
GUESS_RECORDS = 1000  # records that suffice to distinguish a job file from an answer file


class Damage(NamedTuple):
    """Where a file stops being what it should be, and why."""

    at: int
    text: str
    unreadable: bool  # no record can be read from there on, although bytes are there


class Scan(NamedTuple):
    """What a walk over a whole file found."""

    marks: dict  # how many records of each mark
    unusable: list  # the numbers of the answers that hold a NaN or an infinity
    end: int  # the byte behind the last whole record
    damages: list
    counts: tuple  # ZZ's, or None

    @property
    def records(self):
        return sum(self.marks.values())


def name_of(path):
    return STDIN if path in (None, "-") else path


def load(path):
    """A file's bytes; a large file is mapped, not copied."""
    try:
        if path in (None, "-"):
            return sys.stdin.buffer.read()
        with open(path, "rb") as file:
            status = os.fstat(file.fileno())
            if stat.S_ISREG(status.st_mode) and status.st_size:
                return mmap.mmap(file.fileno(), 0, access=mmap.ACCESS_READ)
            return file.read()
    except OSError as error:
        raise Failure(f"jobs: cannot read {name_of(path)}: {error.strerror}")


def walk(data, table):
    """Offset and layout of each record, up to the first bytes that are no whole record."""
    at, end = 0, len(data)
    while True:
        layout = table.get(data[at:at + 2])
        if layout is None or at + layout.size > end:
            return
        yield at, layout
        at += layout.size


def hexadecimal(some):
    return " ".join(f"{byte:02x}" for byte in some)


def damage_at(data, at, table):
    """The damage at byte `at`, where the whole records of `table` end before the file does."""
    left, mark = len(data) - at, bytes(data[at:at + 2])
    if left == 1:
        return Damage(at, f"the file ends inside a mark, after {hexadecimal(mark)}", False)
    if mark in table:
        return Damage(at, f"the file ends inside a record: {table[mark].mark} takes "
                          f"{table[mark].size} bytes, {left} are there", False)
    return Damage(at, f"unknown mark {hexadecimal(mark)} ({ascii(mark.decode('latin-1'))}); "
                      f"{count(left, 'byte')} from there cannot be read", True)


def counts_text(counts):
    """The first four of ZZ's counts in words."""
    return ", ".join(f"{number:,} {group.name}" for number, group in zip(counts, TOTALS))


def count_errors(counts, counted, marks):
    """What is wrong with ZZ's counts, given those of the answers, `counted`, and the records by mark."""
    if counts[:len(TOTALS)] != counted:
        yield "ZZ does not fit the records, which are " + counts_text(counted)
    by_mark = counts[len(TOTALS):]
    if sum(by_mark) != counts[0]:
        yield f"ZZ's counts by mark add up to {sum(by_mark):,}, where {counts[0]:,} are begun"
    for mark, number in zip(COUNTED, by_mark):
        if number < marks.get(mark, 0):
            yield (f"ZZ counts {number:,} {mark}, where {count(marks[mark], 'record')} of them "
                   f"{'is' if marks[mark] == 1 else 'are'} answered")
    if by_mark[-1] > 1:
        yield f"ZZ counts {by_mark[-1]:,} unknown and half marks, where a job ends at the first"


def end_damages(data, at, marks, unusable):
    """The damages of an answer file whose records end at byte `at`."""
    left = len(data) - at
    if data[at:at + 2] != ZZ:
        missing = Damage(len(data), "ZZ and its counts are missing: the answer is not whole", False)
        found = [damage_at(data, at, ANSWER)] if left else []
        return found if found and found[0].unreadable else [*found, missing]
    if left < END.size:
        four = ("; it has its first four counts alone, as before records were counted by mark: run the job again"
                if left == OLDER_END.size else "")
        return [Damage(at, f"ZZ is short, {left} of {END.size} bytes: the answer is not whole{four}", False)]
    begun, refused = sum(marks.values()), marks.get("NO", 0)
    counted = (begun, begun - refused - unusable, refused, unusable)
    found = [Damage(at, text, False) for text in count_errors(END.numbers.unpack_from(data, at + 2), counted, marks)]
    if left > END.size:
        found.append(Damage(at + END.size, f"{count(left - END.size, 'byte')} after ZZ", True))
    return found


def scanned(data, table, what):
    """The records of a whole file by mark, which answers are not usable, and the byte behind the last record."""
    marks, unusable, done, end, records = collections.Counter(), [], 0, 0, bulk(table)
    progress = Progress(what, 0, step=1)
    while True:
        at = end
        end, counts = records.count(data, at, min(len(data), at + WINDOW))
        if end == at:
            progress.end()
            return {mark.decode(): number for mark, number in marks.items() if number}, unusable, end
        if table is ANSWER:
            unusable += (done + 1 + number for number in records.unusable(data, at, end))
        marks.update(counts)
        done += sum(counts.values())
        progress(done)


def scan(data, table, what):
    """Walks a whole file."""
    marks, unusable, end = scanned(data, table, what)
    if table is JOB:
        damages = [damage_at(data, end, JOB)] if end < len(data) else []
        return Scan(marks, unusable, end, damages, None)
    damages = end_damages(data, end, marks, len(unusable))
    whole = data[end:end + 2] == ZZ and end + END.size <= len(data)
    counts = END.numbers.unpack_from(data, end + 2) if whole else None
    return Scan(marks, unusable, end, damages, counts)


def readability(data, table):
    """How well a table fits the first records: 2 all, 1 cut, 0 damaged; and how many it reads."""
    records, end = 0, 0
    for at, layout in walk(data, table):
        records, end = records + 1, at + layout.size
        if records == GUESS_RECORDS:
            return 2, records
    mark = data[end:end + 2]
    if end == len(data) or table is ANSWER and mark == ZZ:
        return 2, records
    return int(mark in table or len(mark) == 1), records


def guess(data):
    """The table that fits better; if both or none fit, a ZZ at the end decides."""
    job, answer = readability(data, JOB), readability(data, ANSWER)
    if any(data[-last.size:][:2] == ZZ for last in (END, OLDER_END)) and (job == answer or max(job, answer)[0] < 2):
        return ANSWER
    return JOB if job >= answer else ANSWER


def whole_without_frames(data, table, before):
    """Whether a file is whole by the table `before`, with a record that `table` gives frames."""
    end, longer = 0, False
    for at, layout in walk(data, before):
        end = at + layout.size
        longer = longer or table[layout.mark.encode()].size > layout.size
    return longer and (end == len(data) if table is JOB else data[end:end + 2] == ZZ)


def older_format_message(data):
    """A message if a damaged file is whole in the older format, else nothing."""
    if whole_without_frames(data, JOB, OLDER_JOB):
        return "a job of the older format? Its poses have no frames; expected from and to behind each " \
               "pose's eight numbers and behind EX's values (jobs make takes them as frames 3 7)"
    if whole_without_frames(data, ANSWER, OLDER_ANSWER):
        return "answers of the older format? Their poses have no frames; expected answers to a job " \
               "whose poses have them"
    return ""
