"""`jobs show`: a job file or an answer file as text, one record a line."""
import multiprocessing
import os
import struct
import sys
from math import isfinite

from . import bulk
from .floats import DOUBLE
from .layout import ANSWER, END, JOB, MOST_RECORDS, TOTALS
from .records import guess, hexadecimal, load, name_of, older_format_message, scan, walk
from .terminal import Failure, Lines, Progress, count, say

MOST_RAW = 32  # bytes that are shown of what begins with no mark
PARALLEL_FROM = 50_000  # records from which several processes format
CHUNK_BYTES = 1 << 19  # bytes of a file that one process formats at a time
WORKER = ()  # what init_worker was given
MOST_NUMBERS = 6  # numbers of a record that is not usable, in its line


def template(layout):
    """A record's line with a %s for each number."""
    groups = (g.name + " %s" * len(g.parts) for g in layout.groups)
    return f"{layout.mark} " + "; ".join(groups)


TEMPLATES = {layout: template(layout) for layout in (*JOB.values(), *ANSWER.values(), END)}


def remark(layout, numbers):
    """The meaning of a refusal's number and of AR's bytes; of AR once if it is the same for both signs."""
    words = [layout.meaning(i, numbers[i]) for i in layout.named]
    half = len(words) // 2
    signs = ["; ".join(filter(None, some)) for some in (words[:half], words[half:])]
    if not half or signs[0] == signs[1]:
        return signs[1]
    return f"at sigma: {signs[0]}; at -sigma: {signs[1]}"


def texts(layout, bits):
    """The numbers of a record, of which these are the bits, as texts."""
    return tuple(width.text(x) if width else str(x) for width, x in zip(layout.widths, bits))


def end_line(data, at, layout):
    """ZZ as a line: its four counts, and of those by mark the ones that are not 0."""
    numbers = layout.numbers.unpack_from(data, at + 2)
    shown = (f"{name} {number}"
             for i, (name, number) in enumerate(zip(layout.fields, numbers)) if number or i < len(TOTALS))
    return [f"{layout.mark} " + "; ".join(shown)]


def plain_line(data, at, layout):
    """A record's numbers in its line, without bulk.c: str is the shortest decimal of a double."""
    bits = layout.bits.unpack_from(data, at + 2)
    if layout.width is DOUBLE:
        line = TEMPLATES[layout] % layout.numbers.unpack_from(data, at + 2)
        if line.count("nan") == bits.count(DOUBLE.nan):
            return line
    return TEMPLATES[layout] % texts(layout, bits)  # singles; a NaN with bits of its own


def one_line(data, at, layout):
    """A record as a line, which `make` reads if it is a job's."""
    shown = bulk.texts(data, at, layout)
    line = TEMPLATES[layout] % shown if shown else plain_line(data, at, layout)
    meaning = remark(layout, layout.numbers.unpack_from(data, at + 2)) if layout.named else ""
    return [f"{line}  # {meaning}" if meaning else line]


def hex_lines(data, at, layout):
    """A record as bytes: a line for its mark and one for each number."""
    lines = [f"{at:8}  {hexadecimal(data[at:at + 2]):23}  {layout.mark}"]
    bits = layout.bits.unpack_from(data, at + 2)
    at += 2
    for i, (name, code, number) in enumerate(zip(layout.fields, layout.codes, texts(layout, bits))):
        size = struct.calcsize("<" + code)
        meaning = layout.meaning(i, bits[i])
        note = f" ({meaning})" if meaning else ""
        lines.append(f"{at:8}  {hexadecimal(data[at:at + size]):23}  {name} = {number}{note}")
        at += size
    return lines


def unusable_line(number, data, at, layout):
    """A record's number and mark, and its first numbers that are a NaN or an infinity."""
    numbers, shown = layout.numbers.unpack_from(data, at + 2), texts(layout, layout.bits.unpack_from(data, at + 2))
    bad = [f"{name} {word}" for name, x, word in zip(layout.fields, numbers, shown) if not isfinite(x)]
    more = f" and {len(bad) - MOST_NUMBERS:,} more" if len(bad) > MOST_NUMBERS else ""
    return f"record {number}  {layout.mark}  {', '.join(bad[:MOST_NUMBERS])}{more}"


def print_unusable(data, found):
    """The answers that are not usable, and how many they are."""
    out, left = Lines(), set(found.unusable)
    for number, (at, layout) in enumerate(walk(data, ANSWER), 1):
        if number in left:
            out.add(unusable_line(number, data, at, layout))
    out.add(f"not usable: {count(len(left), 'answer')} of {count(found.records, 'record')}")
    out.flush()


def raw_line(data, at, table):
    """A cut record, or the first bytes where there is none, as a line that `make` reads."""
    layout = table.get(data[at:at + 2])
    some = data[at:at + (layout.size if layout else MOST_RAW)]
    more = len(data) - at - len(some)
    return f"bytes {hexadecimal(some)}" + (f"  # and {more:,} more" if more else "")


def print_records(data, table, wanted, lines_of):
    """The records whose numbers are wanted."""
    out, progress = Lines(), Progress("show", wanted.stop - 1)
    for number, (at, layout) in enumerate(walk(data, table), 1):
        if number >= wanted.stop:
            break
        if number >= wanted.start:
            out.add(*lines_of(data, at, layout))
        progress(number)
    progress.end()
    out.flush()


def print_all(data, table, records, lines_of):
    """Prints all records; those of a large file are formatted by one process per processor."""
    cores = len(os.sched_getaffinity(0))
    if records < PARALLEL_FROM or cores == 1:
        return print_records(data, table, range(1, records + 1), lines_of)
    progress, done = Progress("show", records, step=1), 0
    sys.stdout.flush()
    with multiprocessing.get_context("fork").Pool(cores, init_worker, (data, table, lines_of)) as pool:
        for text, some in pool.imap(chunk_text, chunks(data, table)):
            sys.stdout.buffer.write(text)
            done += some
            progress(done)
        sys.stdout.flush()
    progress.end()


def chunks(data, table):
    """Chunks of whole records: the first byte of each, and the byte after its last record."""
    at, records = 0, bulk.bulk(table)
    while True:
        end, _ = records.count(data, at, min(at + CHUNK_BYTES, len(data)))
        if end == at:
            return
        yield at, end
        at = end


def init_worker(*given):
    """Stores what a worker process needs: the file, its table, and the function that formats a record."""
    global WORKER
    WORKER = given


def chunk_text(places):
    """The lines of the records between two bytes, as one text in bytes, and how many records they are."""
    data, table, lines_of = WORKER
    at, end = places
    lines, records = [], 0
    while at < end:
        layout = table[data[at:at + 2]]
        lines += lines_of(data, at, layout)
        at, records = at + layout.size, records + 1
    return ("\n".join(lines) + "\n").encode(), records


def print_end(data, table, found, lines_of):
    """ZZ, and the bytes that are no record."""
    out, end = Lines(), found.end
    if found.counts:
        out.add(*lines_of(data, end, END))
        end += END.size
    if end < len(data):
        out.add(raw_line(data, end, table))
    out.flush()


def say_damages(name, data, found, read_as, guessed):
    for damage in found.damages:
        say(f"{name}: byte {damage.at}: {damage.text}")
    before = older_format_message(data) if found.damages else ""
    if before:
        say(f"jobs: {before}")
    elif found.damages and guessed:
        say("jobs: it was read as " + ("a job file; --out reads it as an answer file"
                                       if read_as is JOB else
                                       "an answer file; --in reads it as a job file"))
    if read_as is JOB and found.records > MOST_RECORDS:
        say(f"jobs: {found.records:,} records; the job program answers the first {MOST_RECORDS:,}")


def show(path, table, wanted, as_bytes, unusable=False, every_count=False):
    """The command: 0, or 1 where the file is damaged. Without `wanted`, everything is shown."""
    data, name = load(path), name_of(path)
    read_as = table or guess(data)
    found = scan(data, read_as, "reading")
    lines_of = hex_lines if as_bytes else one_line
    if unusable and read_as is JOB:
        raise Failure(f"jobs: {name} is a job file; expected answers for --unusable")
    if unusable:
        print_unusable(data, found)
    elif wanted is None:
        print_all(data, read_as, found.records, lines_of)
        print_end(data, read_as, found, lines_of if as_bytes or every_count else end_line)
    elif wanted.stop - 1 > found.records:
        raise Failure(f"jobs: no record {wanted.stop - 1:,} in {name}; it has {found.records:,}")
    else:
        print_records(data, read_as, wanted, lines_of)
    say_damages(name, data, found, read_as, guessed=table is None)
    return 1 if found.damages else 0
