"""`jobs diff`: two answer files record by record."""
from .floats import DOUBLE, SINGLE
from .layout import ANSWER, END, JOB
from .records import counts_text, guess, load, older_format_message, scan, walk
from .terminal import Failure, Lines, Progress, count

EQUAL, DIFFERENT, UNREADABLE = 0, 1, 2
NOT_PRINTED = " not printed"
MOST_SPANS = 12  # of records that are not usable, in a line


def differing(layout, old, old_at, new, new_at):
    """Places and bits of the numbers in which two records differ; every NaN equals every NaN."""
    before = layout.bits.unpack_from(old, old_at + 2)
    after = layout.bits.unpack_from(new, new_at + 2)
    return [(i, a, b) for i, (a, b) in enumerate(zip(before, after))
            if a != b and not is_nan(layout, i, a, b)]


def is_nan(layout, i, *bits):
    """Whether all these numbers of a field are NaN."""
    width = layout.widths[i]
    return width is not None and all(map(width.is_nan, bits))


def number_text(layout, i, bits):
    """A number as a difference shows it."""
    if layout.widths[i]:
        return layout.widths[i].text(bits)
    meaning = layout.meaning(i, bits)
    return f"{bits} ({meaning})" if meaning else str(bits)


def distance(layout, i, old, new):
    """How far apart two numbers are, in words."""
    if i in layout.flags:
        return "another flag"
    if i in layout.frames:
        return "another frame"
    if not layout.widths[i]:
        return f"another {layout.kind(i)}" if layout.names[i] else f"{new - old:+,}"
    steps = layout.widths[i].ulps(old, new)
    if steps is None:
        return "NaN against a number"
    return f"{steps:,} ulp" if steps else "sign of zero"


def span(first, last):
    return f"record {first}" if first == last else f"records {first} to {last}"


class Report:
    """Prints differences up to a limit and counts all of them."""

    def __init__(self, limit):
        self.out, self.limit = Lines(), limit
        self.differences, self.numbers, self.nan_bits = 0, 0, 0
        self.records = {}  # different records by mark, that of the old file
        self.largest = {DOUBLE: (0, ""), SINGLE: (0, "")}  # of each width: how far, and where

    def should_print(self):
        """Counts a difference; whether its line is within the limit."""
        self.differences += 1
        return self.limit is None or self.differences <= self.limit

    def count_record(self, mark):
        self.records[mark] = self.records.get(mark, 0) + 1

    def different_marks(self, number, mark, old, new):
        """Two records of different marks, as when one side refuses."""
        self.count_record(mark)
        if self.should_print():
            self.out.add(f"record {number}  {old}  ->  {new}")

    def changed(self, place, layout, found):
        """Two records of one mark that differ in bytes; in nothing but NaN bits if none is found."""
        if not found:
            self.nan_bits += 1
            return
        self.count_record(layout.mark)
        self.numbers += len(found)
        for i, old, new in found:
            width = layout.widths[i]
            if width and i not in layout.flags:
                steps = width.ulps(old, new) or 0
                if steps > self.largest[width][0]:
                    self.largest[width] = steps, f"{place} {layout.mark} {layout.fields[i]}"
            if self.should_print():
                self.out.add(f"{place}  {layout.mark}  {layout.fields[i]}  "
                             f"{number_text(layout, i, old)}  ->  {number_text(layout, i, new)}  "
                             f"{distance(layout, i, old, new)}")

    def only_in(self, name, first, last):
        """Records that the other file does not have."""
        self.records["missing"] = last - first + 1
        if self.should_print():
            self.out.add(f"{span(first, last)}  in {name} alone")

    def summary(self):
        """What was counted, one line for each thing."""
        if self.limit is not None and self.differences > self.limit:
            yield count(self.differences - self.limit, "more difference") + NOT_PRINTED
        if self.nan_bits:
            yield "equal but for the bits of a NaN: " + count(self.nan_bits, "record")
        if self.records:
            marks = ", ".join(f"{mark} {number:,}" for mark, number in self.records.items())
            yield f"different: {count(sum(self.records.values()), 'record')} ({marks}), " \
                  f"{count(self.numbers, 'number')}"
        for width, (steps, where) in self.largest.items():
            if steps:
                yield f"largest distance{' of singles' if width is SINGLE else ''}: {steps:,} ulp, {where}"


def kind(data, at, layout):
    """A record's mark, with the number if it is a refusal."""
    return f"NO {number_text(layout, 0, data[at + 2])}" if layout.mark == "NO" else layout.mark


def compare(old, new, total, report):
    """Record by record as bytes; numbers are looked at only where the bytes differ."""
    progress = Progress("diff", total)
    pairs = zip(walk(old, ANSWER), walk(new, ANSWER))
    for number, ((old_at, before), (new_at, after)) in enumerate(pairs, 1):
        if before is not after:
            report.different_marks(number, before.mark, kind(old, old_at, before),
                              kind(new, new_at, after))
        elif old[old_at:old_at + before.size] != new[new_at:new_at + before.size]:
            found = differing(before, old, old_at, new, new_at)
            report.changed(f"record {number}", before, found)
        if not number % Progress.STEP:
            progress(number)
    progress.end()


def unreadable(found):
    return any(damage.unreadable for damage in found.damages)


def compare_ends(names, old, new, scans, report):
    """Records that one file has too many, and the counts where both have them."""
    counts = [found.records for found in scans]
    if counts[0] != counts[1]:
        longer = 0 if counts[0] > counts[1] else 1
        first, last = min(counts) + 1, max(counts)
        if unreadable(scans[1 - longer]):
            report.out.add(f"{span(first, last)}  in {names[longer]} not compared")
        else:
            report.only_in(names[longer], first, last)
    if scans[0].counts and scans[1].counts and scans[0].counts != scans[1].counts:
        report.changed("end", END, differing(END, old, scans[0].end, new, scans[1].end))


def say_damages(name, data, found, out):
    """Reports what keeps a file from being a whole answer."""
    if found.damages and older_format_message(data):
        raise Failure(f"jobs: {name}: {older_format_message(data)}")
    if unreadable(found) and guess(data) is JOB:
        raise Failure(f"jobs: {name} is not an answer file; expected two (jobs show reads any file)")
    for damage in found.damages:
        out.add(f"{name}: byte {damage.at}: {damage.text}")


def ending(found):
    """The records and counts of a file in words."""
    records = count(found.records, "record")
    if found.counts:
        return f"{records}, ZZ {counts_text(found.counts)}"
    return records + (" could be read" if unreadable(found) else ", no ZZ")


def spans(numbers, most, lister):
    """`3, 7 to 9, 12`: the first numbers of a rising list, how many more there are, and what lists them."""
    found = []
    for number in numbers:
        if found and number == found[-1][1] + 1:
            found[-1][1] = number
        else:
            found.append([number, number])
    words = [f"{a:,}" if a == b else f"{a:,} to {b:,}" for a, b in found[:most]]
    left = sum(b - a + 1 for a, b in found[most:])
    return ", ".join(words) + (f" and {left:,} more ({lister} lists them)" if left else "")


def say_unusable(names, scans, out):
    """Reports which answers are not usable, once if the lists of both files are the same."""
    lists = [found.unusable for found in scans]
    both = lists[0] == lists[1]
    for name, numbers in zip(("both",) if both else names, lists):
        if numbers:
            out.add(f"not usable in {name}: {count(len(numbers), 'answer')}, "
                    f"record{'s' if len(numbers) > 1 else ''} {spans(numbers, MOST_SPANS, 'jobs show --unusable')}")


def diff(old_path, new_path, limit, report=None, finish=None):
    """The command: 0 equal and whole, 1 different or not whole, 2 unreadable. `finish` gets the names and the
    summary."""
    if old_path == new_path == "-":
        raise Failure("jobs: OLD and NEW are both standard input; expected two files")
    names = (f"OLD {old_path}", f"NEW {new_path}")
    old, new = load(old_path), load(new_path)
    scans = [scan(data, ANSWER, "reading") for data in (old, new)]
    report = report or Report(limit)
    for name, data, found in zip(names, (old, new), scans):
        say_damages(name, data, found, report.out)
    compare(old, new, min(found.records for found in scans), report)
    compare_ends(names, old, new, scans, report)
    whole = not any(found.damages for found in scans)
    summary = LineList()
    summary.add(*report.summary())
    say_unusable(names, scans, summary)
    if whole and not report.differences:
        summary.add(f"equal: {ending(scans[0])}")
    else:
        summary.add(*(f"{name}: {ending(found)}" for name, found in zip(names, scans)))
    report.out.add(*summary.lines)
    report.out.flush()
    if finish:
        finish(names, summary.lines)
    if any(map(unreadable, scans)):
        return UNREADABLE
    return EQUAL if whole and not report.differences else DIFFERENT


class LineList:
    """A list of lines, with the interface of Lines."""

    def __init__(self):
        self.lines = []

    def add(self, *lines):
        self.lines += lines
