"""`jobs split`: a job of any size cut at record boundaries into parts that the program answers one by one, and an index
by which `jobs merge` puts their answers together.

Every part begins with two IN records of its own, the head, whose frames hold 48 bits of the job's sum and the part's
number. The program answers IN with the same frames exchanged, so a part's answers identify job and part.
"""
import json
import os
import zlib

from .bulk import bulk
from .layout import ANSWER, JOB, JOIN, MOST_RECORDS, SHEETS
from .records import damage_at, load, name_of
from .terminal import Failure, Progress, count, say

FORMAT = "sim3 parts of a job, 1"
# the index's name, and the suffixes of a part and of its answers
INDEX, JOB_SUFFIX, ANSWER_SUFFIX = "index", ".in", ".out"
HEAD, HEAD_MARK = 2, "IN"  # the records that are put in front of each part, and their mark
MOST_PART = MOST_RECORDS - HEAD  # records of the job's in a part
MOST_PARTS, MOST_COUNT = 0xFFFF, 0xFFFFFFFF  # a frame has 16 bits, a count of ZZ 32
STEP = 1 << 26  # bytes summed between two updates of the progress line
FREE, JOINED, KEPT = range(3)  # the groups: records without state, of the running join, of the kept sheets
GROUP_LETTERS = b"fjk"  # the groups' letters in the index
NAMES, MARKS = {JOINED: "join", KEPT: "sheets"}, {JOINED: JOIN, KEPT: SHEETS}
GROUPS = {**dict.fromkeys(JOB, FREE), **dict.fromkeys(JOIN, JOINED), **dict.fromkeys(SHEETS, KEPT)}
NUMBERS = bytes(range(len(GROUP_LETTERS)))
TO_LETTERS, TO_NUMBERS = bytes.maketrans(NUMBERS, GROUP_LETTERS), bytes.maketrans(GROUP_LETTERS, NUMBERS)


def marks_text(group):
    """`CH and RN`."""
    return " and ".join(mark.decode() for mark in MARKS[group])


def checksum(data, most):
    """The 48 bits that identify a job's parts, as three frames: a sum of 32 bits of its bytes, and one of 16 bits of
    its length and the size of the parts."""
    view, found, progress = memoryview(data), 0, Progress("split: reading", len(data), "bytes", 1)
    for at in range(0, len(data), STEP):
        found = zlib.crc32(view[at:at + STEP], found)
        progress(at)
    progress.end()
    return found & 0xFFFF, found >> 16, zlib.crc32(b"%d %d" % (len(data), most)) & 0xFFFF


def head(job, number):
    """The two records at the beginning of a part: inverses of the identity, whose frames identify job and part."""
    pose = (1.0, 0.0, 0.0, 0.0, 0.0, 0.0, 0.0, 0.0)
    layout = JOB[HEAD_MARK.encode()]
    frames = (*job, number)
    return b"".join(layout.mark.encode() + layout.numbers.pack(*pose, *frames[i:i + 2], 1.0) for i in (0, 2))


def read_head(data):
    """The job's three frames and the part's number from the answers to a head; None if these are no such answers."""
    layout, found = ANSWER[HEAD_MARK.encode()], []
    for i in range(HEAD):
        at = i * layout.size
        if bytes(data[at:at + 2]) != HEAD_MARK.encode() or len(data) < at + layout.size:
            return None
        to, from_ = layout.numbers.unpack_from(data, at + 2)[8:10]
        found += (from_, to)
    return tuple(found[:3]), found[3]


class Part:
    """A part of the job, open for writing."""

    def __init__(self, folder, name, group, head):
        self.name, self.group, self.records = name, group, 0
        self.file = open(os.path.join(folder, name + JOB_SUFFIX), "wb")
        self.file.write(head)


class Cutter:
    """The parts of a job in the order in which they were begun, and which group each record belongs to."""

    def __init__(self, folder, job, most):
        self.folder, self.job, self.most = folder, job, most
        self.parts, self.open = [], [None] * len(GROUP_LETTERS)
        self.order = bytearray()

    def begin(self, group):
        """A new part of a group."""
        number, before = len(self.parts) + 1, self.open[group]
        if number > MOST_PARTS:
            raise Failure(f"jobs: more than {MOST_PARTS:,} parts; give more records to a part (--records)")
        if before and group != FREE:
            raise Failure(f"jobs: more than {before.records:,} records of {marks_text(group)}, whose answers depend on "
                          "one another, so that they stand in one part, which the program does not answer to its end; "
                          "begin a new job in between")
        if before:
            before.file.close()
        self.open[group] = Part(self.folder, NAMES.get(group) or f"{number:05}", group, head(self.job, number))
        self.parts.append(self.open[group])

    def most_of(self, group):
        """How many records a part of a group takes; all that have state must stand in one."""
        return self.most if group == FREE else MOST_PART

    def room(self, group):
        """How many records the group's part still takes, or the next one if that is full or not begun."""
        most, part = self.most_of(group), self.open[group]
        return most - part.records % most if part else most

    def put(self, group, some, records):
        """Writes records of a group, no more than there is room for."""
        part = self.open[group]
        if part is None or part.records == self.most_of(group):
            self.begin(group)
        self.open[group].file.write(some)
        self.open[group].records += records

    def add(self, cut):
        """Writes records that are sorted into groups."""
        for group, (some, records) in enumerate(zip(cut.pieces, cut.records)):
            if records:
                self.put(group, some, records)
        self.order += cut.order

    def add_rest(self, data, at):
        """Adds what follows the last whole record: the program answers an unknown mark by 6, a cut record by 7, and
        stops."""
        mark = data[at:at + 2]
        self.put(FREE, data[at:] if mark in JOB or len(mark) < 2 else mark, 1)
        self.order.append(FREE)

    def write_index(self, name, size):
        """The index: a line of JSON, and behind it a letter for each record unless all are of one group."""
        parts = [{"name": part.name, "records": part.records, "group": chr(GROUP_LETTERS[part.group])}
                 for part in self.parts]
        header = {"format": FORMAT, "job": name, "bytes": size, "sum": self.job, "records": len(self.order),
                "parts": parts}
        with open(os.path.join(self.folder, INDEX), "wb") as file:
            file.write(json.dumps(header).encode() + b"\n")
            file.write(self.order.translate(TO_LETTERS) if len(self.open) - self.open.count(None) > 1 else b"")


def make_folder(folder):
    """Makes the folder, or takes an empty one, so that no answers of another job are in it."""
    try:
        os.makedirs(folder, exist_ok=True)
        if os.listdir(folder):
            raise Failure(f"jobs: the folder {folder} is not empty; expected a new one, or one with nothing in it")
    except OSError as error:
        raise Failure(f"jobs: the folder {folder} cannot be made: {error.strerror}")


def cut(data, cutter):
    """Writes all records of a job to their parts; the damage at which the program stops, or None."""
    progress, at, records = Progress("split", 0, step=1), 0, bulk(JOB, GROUPS)
    while True:
        some = records.cut(data, at, len(data), [cutter.room(group) for group in range(len(GROUP_LETTERS))])
        if not some.order:
            break
        cutter.add(some)
        at = some.at
        progress(len(cutter.order))
        if len(cutter.order) >= MOST_COUNT:
            raise Failure(f"jobs: more than {MOST_COUNT:,} records, which ZZ's counts of 32 bits do not hold; begin a "
                          "new job before that")
    progress.end()
    if at == len(data):
        return None
    cutter.add_rest(data, at)
    return damage_at(data, at, JOB)


def write_parts(path, data, folder, most):
    """Writes the parts and the index; the cutter, and the damage at which the program stops, or None."""
    make_folder(folder)
    try:
        cutter = Cutter(folder, checksum(data, most), most)
        damage = cut(data, cutter)
        if not cutter.parts:
            cutter.begin(FREE)
        for part in filter(None, cutter.open):
            part.file.close()
        cutter.write_index(name_of(path), len(data))
    except OSError as error:
        raise Failure(f"jobs: {folder} cannot be written: {error.strerror}; remove it, and split the job again")
    return cutter, damage


def split(path, folder, most):
    """The command: 0."""
    data = load(path)
    cutter, damage = write_parts(path, data, folder, most)
    say(f"jobs: {count(len(cutter.order), 'record')} in {count(len(cutter.parts), 'part')} of at most {most:,}"
        + "".join(f"; {part.name}{JOB_SUFFIX} has all of {marks_text(part.group)}"
                  for part in cutter.open[JOINED:] if part))
    if damage:
        say(f"jobs: {name_of(path)}: byte {damage.at}: {damage.text}; the program stops there")
    return 0
