"""`jobs totals`: the counts of several answer files added up by mark, for the monthly sheet."""
import csv
import os
import sys
from typing import NamedTuple

from .layout import ANSWER, END, JOB, OLDER_END, TOTALS
from .records import ZZ, load, name_of, older_format_message, readability, scan
from .terminal import Failure, Lines, Progress, count, say

MOST_COLUMNS = 8  # files that have a column each in the text
WHOLE, NOT_WHOLE, NOT_READ = 0, 1, 2
AGAIN = "run the job again (./sim3-job < JOBS > ANSWERS), and see that its status is 0"


class Added(NamedTuple):
    """A whole answer file: its name and the counts of its ZZ."""

    name: str
    counts: tuple


def advice(data, found):
    """What to do about a file that is not whole."""
    left = len(data) - found.end
    if data[found.end:found.end + 2] != ZZ:
        return AGAIN if found.records or not left else "give an answer file"
    if left == OLDER_END.size:
        return "run the job again, so that its records are counted by mark"
    if left < END.size:
        return AGAIN
    if left > END.size:
        return "give each answer a file of its own, with nothing behind its ZZ"
    return f"its counts are not to be trusted: {AGAIN}"


def read(path, what):
    """The counts of a file, or messages about what keeps it from being a whole answer."""
    data, name = load(path), name_of(path)
    found = scan(data, ANSWER, what)
    if not found.damages:
        return Added(name, found.counts), []
    if older_format_message(data):
        return None, [f"{name}: {older_format_message(data)}; not added"]
    if readability(data, JOB) > readability(data, ANSWER):
        return None, [f"{name}: it is a job file; not added: give its answers (./sim3-job < {name} > ANSWERS)"]
    messages = [f"{name}: byte {damage.at}: {damage.text}" for damage in found.damages]
    return None, [*messages[:-1], f"{messages[-1]}; not added: {advice(data, found)}"]


def read_all(paths):
    """The whole files, messages about the others, and the exit status."""
    added, messages, status = [], [], WHOLE
    progress = Progress("totals", len(paths), "files", 1)
    for number, path in enumerate(paths, 1):
        progress(number)
        try:
            one, wrong = read(path, f"totals: file {number:,} of {len(paths):,}")
        except Failure as failure:
            messages.append(f"{str(failure).removeprefix('jobs: ')}; not added")
            status = NOT_READ
            continue
        added += [one] if one else []
        messages += wrong
        status = max(status, NOT_WHOLE if wrong else WHOLE)
    progress.end()
    return added, messages, status


def check_names(paths):
    """A file that is given twice would be counted twice."""
    seen = {}
    for path in paths:
        key = path
        if path != "-" and os.path.exists(path):
            status = os.stat(path)
            key = status.st_dev, status.st_ino
        if key in seen:
            also = "" if seen[key] == path else f", also as {seen[key]}"
            raise Failure(f"jobs: {name_of(path)} is given twice{also}; expected each answer file once")
        seen[key] = path


def rows(added, every):
    """Each count with its number in every file and the sum; of the marks those that are not 0, or every one."""
    for i, field in enumerate(END.fields):
        numbers = [one.counts[i] for one in added]
        if every or i < len(TOTALS) or any(numbers):
            yield field, numbers, sum(numbers)


def lines(added, every):
    """The files by number, and the table."""
    with_columns = len(added) <= MOST_COLUMNS
    width = len(f"{len(added)}")
    for number, one in enumerate(added, 1):
        yield f"file {number:>{width}}  {one.name}: {count(one.counts[0], 'record')}"
    if not added:
        yield "no whole answer file: nothing was added up"
        return
    table = list(rows(added, every))
    heads = ["count", *(f"file {n}" for n in range(1, len(added) + 1) if with_columns and len(added) > 1), "sum"]
    words = [heads, *([field, *(f"{n:,}" for n in numbers if with_columns and len(added) > 1), f"{total:,}"]
                      for field, numbers, total in table)]
    widths = [max(map(len, column)) for column in zip(*words)]
    for place, row in enumerate(words):
        if place == 1 + len(TOTALS):
            yield "by mark:"
        yield "  ".join([f"{row[0]:{widths[0]}}", *(f"{word:>{w}}" for word, w in zip(row[1:], widths[1:]))])
    if not with_columns:
        yield f"{len(added):,} files; --csv has a column for each"
    yield "in each file added the marks add up to begun, and so do answered, refused and unusable"


def write_csv(added):
    """Every count as a row, every file as a column, the sum last."""
    out = csv.writer(sys.stdout, lineterminator="\n")
    out.writerow(("count", *(one.name for one in added), "sum"))
    out.writerows((field, *numbers, total) for field, numbers, total in rows(added, True))
    sys.stdout.flush()


def totals(paths, as_csv, every):
    """The command: 0, or 1 where a file is not a whole answer, or 2 where one cannot be read."""
    check_names(paths)
    added, messages, status = read_all(paths)
    if as_csv:
        write_csv(added)
        for message in messages:
            say(f"jobs: {message}")
    else:
        out = Lines()
        out.add(*lines(added, every), *messages)
        if messages:
            out.add(f"{len(paths) - len(added):,} of {count(len(paths), 'file')} not added")
        out.flush()
    return status
