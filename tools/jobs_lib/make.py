"""`jobs make`: lines of text to a job file."""
import io
import itertools
import re
import sys

from .floats import BadNumber, quoted
from .host import computed
from .layout import JOB, MOST_RECORDS, OLDER_JOB, UINT16
from .records import load, name_of
from .terminal import Failure, Progress, count, say

PLAIN = re.compile(r"[-+.0-9eE ]*")  # decimals and nothing else
BYTE = re.compile(r"[0-9a-fA-F]{2}")
DIGITS = re.compile(r"[0-9]{1,5}")
MAX_UINT16 = 65_535
FRAMES = "frames"  # stands for any pose's frames
MOST_MESSAGES = 20

# Groups that a line may leave out, those that go together in one bracket.
MAY_MISS = {"EX": [("values",)], "CO": [("values",)], "PA": [("values",), ("J", "Jinv")],
            "AC": [("up",)], "MU": [("up",)], "IN": [("down",)], "JI": [],
            "AR": [("values",)], "CH": [("up",)], "RN": [], "SH": [], "SQ": []}


class BadLine(ValueError):
    """A line that is no record; the text says what is wrong and what is expected."""


class Form:
    """A way to write a mark: the groups that are given."""

    def __init__(self, groups):
        self.groups = groups
        sizes = [len(g.parts) for g in groups]
        self.count = sum(sizes)
        self.starts = dict(zip(itertools.accumulate([0, *sizes]), groups))
        fields = [g for g in groups for _ in g.parts]
        self.integers = [(i, "frame" if g.frames else g.name) for i, g in enumerate(fields) if g.code == UINT16]
        self.frames = sum(g.frames for g in fields)

    def text(self):
        return f"{self.count} ({groups_text(self.groups)})"


def groups_text(groups):
    """`phi 3; rho 3; sigma`, for a message or a help."""
    sizes = ((g.name, len(g.parts)) for g in groups)
    return "; ".join(name if size == 1 else f"{name} {size}" for name, size in sizes)


def forms(layout):
    """All ways to write a mark, by how many numbers they give."""
    missing = MAY_MISS[layout.mark.upper()]
    found = []
    for present in itertools.product((False, True), repeat=len(missing)):
        absent = {name for names, here in zip(missing, present) if not here for name in names}
        found.append(Form([g for g in layout.groups if g.name not in absent]))
    return {form.count: form for form in sorted(found, key=lambda form: form.count)}


FORMS = {layout.mark: forms(layout) for layout in JOB.values()}
SEPARATORS = {layout.mark: {";", *(g.name for g in layout.groups),
                            *(FRAMES for g in layout.groups if g.frames)}
              for layout in JOB.values()}


def split_line(words, mark):
    """A line's numbers, and its separators: (how many numbers stand before, name or `;`)."""
    numbers, separators, known = [], [], SEPARATORS[mark]
    for word in words:
        if word in known:
            separators.append((len(numbers), word))
        else:
            numbers.append(word)
    return numbers, separators


def is_name_of(word, group):
    """Whether a word is a group's name; `frames` is that of every pose's."""
    return word == group.name or word == FRAMES and group.frames


def check_frames(mark, total, separators):
    """A line that has all but its frames, as every line of the older format, which had no singles."""
    without = [form.count - form.frames for form in FORMS[mark].values() if form.frames]
    if total in without and not any(word.endswith(FRAMES) for _, word in separators):
        poses = [g.name for g in JOB[mark.encode()].groups if g.frames]
        where = "behind sigma or the values" if mark.upper() == "EX" else "behind each pose's eight numbers"
        older = " (a job of the older format?)" if mark.encode() in OLDER_JOB else ""
        raise BadLine(f"{mark} has {count(total, 'number')}, and {' and '.join(poses)} "
                      f"{'is' if len(poses) == 1 else 'are'} missing{older}: "
                      f"put from and to {where}, as {FRAMES} 3 7")


def check_separators(separators, form, total):
    """A `;` must stand between two groups or at the end, a name before its own group."""
    for place, word in separators:
        group = form.starts.get(place)
        if word == ";":
            if group is None and place < form.count:
                inside = form.starts[max(start for start in form.starts if start < place)]
                raise BadLine(f"';' after {count(place, 'number')} is inside {inside.name}, "
                              f"which takes {len(inside.parts)}")
        elif place == total or group is None or not is_name_of(word, group):
            here = group.name if group and place < total else "no group"
            raise BadLine(f"{word} after {count(place, 'number')}, where {here} begins")


def choose_form(mark, total, separators):
    """The groups that a line gives: the number of its numbers decides."""
    known = FORMS[mark]
    form = known.get(total)
    try:
        if form is None:
            check_frames(mark, total, separators)
        check_separators(separators, form or known[max(known)], total)
        if form is None:
            raise BadLine(f"{mark} has {count(total, 'number')}")
    except BadLine as error:
        raise BadLine(f"{error}; expected " + ", or ".join(f.text() for f in known.values()))
    return form


def read_uint16(word, what):
    if not DIGITS.fullmatch(word) or int(word) > MAX_UINT16:
        raise BadLine(f"{quoted(word)} is no {what}; expected a whole number from 0 to {MAX_UINT16}")
    return int(word)


def read_all(words, form, width):
    """The numbers of a line as bits, and as whole numbers where frames, n, a sheet or a take stand."""
    integers = [(i, read_uint16(words[i], what)) for i, what in form.integers]
    numbers = read_numbers(words, width)
    for i, integer in integers:
        numbers[i] = integer
    return numbers


def read_numbers(words, width):
    """Words as the bits of numbers. Most lines hold plain decimals, which are read at once."""
    if PLAIN.fullmatch(" ".join(words)):
        try:
            numbers = width.bits_of_doubles([float(word) for word in words])
            if numbers is not None:
                return numbers
        except ValueError:
            pass
    try:
        return [width.read(word) for word in words]
    except BadNumber as error:
        raise BadLine(str(error))


class Running:
    """The running pose of the lines so far, as far as `up` needs it: where it comes from, and its log scale."""

    def __init__(self):
        self.begun, self.start, self.sigma = False, 0, 0.0

    def join(self, layout, numbers):
        """Follows a record, if it is a CH."""
        if layout.mark != "CH":
            return
        given = dict(zip(layout.fields, numbers))
        sigma = layout.width.from_bits(given["pose.sigma"])
        if not self.begun or self.start == given["pose.frames.to"]:
            self.sigma = self.sigma + sigma if self.begun else sigma
            self.begun, self.start = True, given["pose.frames.from"]


def complete(layout, form, numbers, running):
    """All numbers of a record: those given, and in their places those that were left out."""
    if form.count == len(layout.fields):
        return numbers
    width, rest = layout.width, iter(numbers)
    given = {g.name: list(itertools.islice(rest, len(g.parts))) for g in form.groups}
    known = {g.name: [width.from_bits(x) for x in given[g.name]] for g in form.groups if g.code != UINT16}
    if layout.mark == "CH" and running.begun:
        known["running.sigma"] = [running.sigma]
    for group in layout.groups:
        if group.name not in given:
            given[group.name] = [width.to_bits(x) for x in computed(group.name, known)]
    return list(itertools.chain.from_iterable(given[g.name] for g in layout.groups))


def raw_bytes(words):
    """The line `bytes 51 51`: bytes as they are, for files that the program refuses."""
    for word in words:
        if not BYTE.fullmatch(word):
            raise BadLine(f"{quoted(word)} is not a byte; expected two hexadecimal digits")
    return bytes(int(word, 16) for word in words)


def record(line, running):
    """The bytes of one line without its comment; none for an empty one. Follows the running pose."""
    words = line.replace(";", " ; ").replace(",", " ").split()
    if not words:
        return b""
    if words[0] == "bytes":
        return raw_bytes(words[1:])
    mark = words[0]
    if mark not in FORMS:
        raise BadLine(f"unknown mark {quoted(mark)}; expected one of {' '.join(FORMS)}, or bytes")
    texts, separators = split_line(words[1:], mark)
    form = choose_form(mark, len(texts), separators)
    layout = JOB[mark.encode()]
    numbers = complete(layout, form, read_all(texts, form, layout.width), running)
    running.join(layout, numbers)
    return mark.encode() + layout.bits.pack(*numbers)


def job(name, lines):
    """The job file of all lines, or a Failure that lists the bad ones."""
    out, bad, records, running = bytearray(), [], 0, Running()
    progress = Progress("make", 0, "lines")
    for number, line in enumerate(lines, 1):
        if b"\0" in line:
            raise Failure(f"{name}:{number}: a zero byte; expected text (jobs show reads job files)")
        try:
            made = record(line.partition(b"#")[0].decode("utf-8", "replace"), running)
            out += made
            records += bool(made)
        except BadLine as error:
            bad.append(f"{name}:{number}: {error}")
            if len(bad) == MOST_MESSAGES:
                bad.append(f"jobs: stopped after {MOST_MESSAGES} bad lines")
                break
        progress(number)
    progress.end()
    if bad:
        raise Failure("\n".join(bad) + "\njobs: nothing was written")
    if records > MOST_RECORDS:
        say(f"jobs: {records:,} records; the job program answers the first {MOST_RECORDS:,}")
    return out


def make(path):
    """The command. Nothing is written before every line is good."""
    if sys.stdout.isatty():
        raise Failure("jobs: a job file is not text; send it to a file: jobs make FILE > jobs.bin")
    data = load(path)
    readline = io.BytesIO(data).readline if isinstance(data, bytes) else data.readline
    out = job(name_of(path), iter(readline, b""))
    sys.stdout.buffer.write(out)
    sys.stdout.buffer.flush()
    return 0
