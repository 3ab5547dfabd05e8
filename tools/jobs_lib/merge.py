"""`jobs merge`: the answers of a job's parts put back into the order of its records, with the ZZ that one run without a
limit would have written."""
import json
import os
import sys
from typing import NamedTuple

from .bulk import CHUNK_RECORDS, Source, bulk
from .layout import ANSWER, END, TOTALS
from .records import end_damages, load
from .split import (ANSWER_SUFFIX, FORMAT, GROUP_LETTERS, HEAD, HEAD_MARK, INDEX, JOB_SUFFIX, MOST_COUNT, TO_NUMBERS,
                    read_head)
from .terminal import Failure, Progress, count, say

WHOLE, WRONG = 0, 1
HEAD_SIZE = HEAD * ANSWER[HEAD_MARK.encode()].size
COPY = 1 << 24  # bytes that are written at once
UNUSABLE = [group.name for group in TOTALS].index("unusable")


class IndexEntry(NamedTuple):
    """A part in the index: its name, its number of records, and the number of their group."""

    name: str
    records: int
    group: int


class Index(NamedTuple):
    """What `jobs split` wrote: the job's sum, its records, its parts, and each record's group where there are
    several."""

    sum: tuple
    records: int
    parts: list
    order: bytes


def read_index(folder):
    """The index of a folder, or Failure."""
    path = os.path.join(folder, INDEX)
    line, _, order = load(path)[:].partition(b"\n")
    try:
        header = json.loads(line)
        parts = [IndexEntry(part["name"], part["records"], GROUP_LETTERS.index(part["group"].encode()))
                 for part in header["parts"]]
        found = Index(tuple(header["sum"]), header["records"], parts, order.translate(TO_NUMBERS))
        if header["format"] != FORMAT or sum(part.records
                                             for part in parts) != found.records or order.strip(GROUP_LETTERS):
            raise ValueError
        groups = {part.group for part in parts}
        expected = {group: sum(part.records for part in parts if part.group == group) for group in groups}
        if len(groups) > 1 and any(found.order.count(group) != records for group, records in expected.items()):
            raise ValueError
    except (ValueError, KeyError, TypeError, AttributeError):
        raise Failure(f"jobs: {path} is no index of `jobs split`, or is cut; split the job again") from None
    return found


class Answers:
    """The answers of one part: their file, its counts, and what keeps it from being taken."""

    def __init__(self, folder, entry, number):
        self.path, self.entry, self.number = os.path.join(folder, entry.name + ANSWER_SUFFIX), entry, number
        self.wrong, self.end, self.counts = [], 0, None

    def check(self, index, records):
        """Reads the file and fills `wrong` with what is wrong and what to do."""
        if os.path.exists(self.path):
            data = load(self.path)
            found = self.wrong_identity(data, index) or self.damages(data, records)
        else:
            found = ["missing"]
        name = self.entry.name
        self.wrong = [f"{text}: run it again (sim3-job < {name}{JOB_SUFFIX} > {name}{ANSWER_SUFFIX})" for text in found]

    def wrong_identity(self, data, index):
        """What is wrong with the head: answers of another job or part."""
        head = read_head(data)
        if head is None:
            return ["cut, or no answers to a part"]
        if head[0] != index.sum:
            return ["of another job"]
        if head[1] != self.number:
            other = index.parts[head[1] - 1].name if 0 < head[1] <= len(index.parts) else "none of this job"
            return [f"the answers of part {other}, which so stand there twice"]
        return []

    def damages(self, data, records):
        """What is wrong with the answers, which must be whole, and as many as the part has records."""
        self.end, found = records.count(data, 0, len(data))
        marks = {mark.decode(): number for mark, number in found.items() if number}
        whole = data[self.end:self.end + 2] == END.mark.encode() and self.end + END.size == len(data)
        self.counts = END.numbers.unpack_from(data, self.end + 2) if whole else None
        unusable = self.counts[UNUSABLE] if whole else 0
        wrong = [f"byte {damage.at}: {damage.text}" for damage in end_damages(data, self.end, marks, unusable)]
        answers = sum(marks.values()) - HEAD
        if whole and answers != self.entry.records:
            wrong.append(f"{count(answers, 'answer')}, where the part has {count(self.entry.records, 'record')}")
        return wrong

    def source(self):
        """The answers after the head; Failure if the file has changed since it was checked."""
        data = load(self.path)
        if len(data) != self.end + END.size:
            raise Failure(f"jobs: {self.path} was changed while it was read; merge again when it is whole", WRONG)
        return Source(data, HEAD_SIZE, self.end)


def in_order(order, parts):
    """The answers in the order of the records, in pieces, each with how many are then done."""
    left = [[part for part in parts if part.entry.group == group] for group in range(len(GROUP_LETTERS))]
    sources, records, done = [Source() for _ in GROUP_LETTERS], bulk(ANSWER), 0
    while done < len(order):
        next_group = order[done]
        while sources[next_group].at == sources[next_group].end:
            sources[next_group] = left[next_group].pop(0).source()
        some, taken = records.interleave(order[done:done + CHUNK_RECORDS], sources)
        done += taken
        yield some, done


def one_after_another(parts):
    """The answers where all records are of one group: those of each part as they stand."""
    done = 0
    for part in parts:
        source = part.source()
        view = memoryview(source.data)[:source.end]
        for at in range(source.at, source.end, COPY):
            yield view[at:at + COPY], done
        done += part.entry.records


def total_counts(parts):
    """The ZZ with the counts of all parts added up, without their heads."""
    counts = [sum(numbers) for numbers in zip(*(part.counts for part in parts))]
    for field in ("begun", "answered", HEAD_MARK):
        counts[END.fields.index(field)] -= HEAD * len(parts)
    assert max(counts) <= MOST_COUNT and sum(counts[len(TOTALS):]) == counts[0]
    return END.mark.encode() + END.numbers.pack(*counts)


def checked_answers(folder, index):
    """The answers of every part, each checked."""
    parts = [Answers(folder, entry, number) for number, entry in enumerate(index.parts, 1)]
    progress, records = Progress("merge: reading", len(parts), "parts", 1), bulk(ANSWER)
    for number, part in enumerate(parts, 1):
        progress(number)
        part.check(index, records)
    progress.end()
    return parts


def merge(folder):
    """The command: 0, or 1 where a part's answers are not the whole ones, and then nothing is written."""
    index = read_index(folder)
    parts = checked_answers(folder, index)
    wrong = [part for part in parts if part.wrong]
    for part in wrong:
        for message in part.wrong:
            say(f"jobs: {part.path}: {message}")
    if wrong:
        say(f"jobs: {len(wrong):,} of {count(len(parts), 'part')} not taken, so nothing is written")
        return WRONG
    out, progress = sys.stdout.buffer, Progress("merge", index.records, step=1)
    for some, done in in_order(index.order, parts) if index.order else one_after_another(parts):
        out.write(some)
        progress(done)
    out.write(total_counts(parts))
    out.flush()
    progress.end()
    return WHOLE
