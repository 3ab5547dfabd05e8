"""The inner loops over the records of a large file: counting records, sorting them into groups, interleaving the
answers of several groups, and formatting numbers. A small library in C, bulk.c, runs them where bindings/build or an
install has made it; the same functions in Python do elsewhere, with the same results."""
import contextlib
import ctypes
import functools
import pathlib
from typing import NamedTuple

from .terminal import INSTALLED, TOP

PATH = (TOP.parents[1] / "lib" / "sim3" if INSTALLED else TOP / "target" / "bindings") / "libsim3_bulk.so"
SOURCE = pathlib.Path(__file__).with_name("bulk.c")  # in the source tree; an install has the library alone
CHUNK_BYTES, CHUNK_RECORDS = 1 << 20, 1 << 16  # the bytes of records, and the records, that are copied at once
ADDRESS, SIZE = ctypes.c_void_p, ctypes.c_size_t
FUNCTIONS = {"count": [ADDRESS, SIZE, SIZE, ADDRESS, ADDRESS, ADDRESS],
             "unusable": [ADDRESS, SIZE, SIZE, ADDRESS, ADDRESS, ADDRESS, ADDRESS],
             "cut": [ADDRESS, SIZE, SIZE, ADDRESS, ADDRESS, ADDRESS, SIZE, ADDRESS, SIZE],
             "interleave": [ADDRESS, SIZE, ADDRESS, ADDRESS, ADDRESS, SIZE, ADDRESS],
             "text": [ADDRESS, ADDRESS, ADDRESS, ADDRESS]}
LEAST_POWER, MOST_POWER = -292, 324  # of ten, for every finite double
TEXT = ctypes.create_string_buffer(1 << 14)  # room for the numbers of any record


class Cut(NamedTuple):
    """Records sorted into groups: the byte after the last, the number of each one's group, and for each group the bytes
    of its records, valid until the next call, and their count."""

    at: int
    order: bytes
    pieces: list
    records: list


class Source:
    """The answers of a group; those from byte `at` to `end` are not yet copied."""

    def __init__(self, data=b"", at=0, end=0):
        self.data, self.at, self.end = data, at, end


class PurePython:
    """The functions in Python, for the records of a table; `group_of` has the number of each mark's group."""

    def __init__(self, table, group_of=None):
        self.table, self.sizes, self.group_of = table, {mark: layout.size for mark, layout in table.items()}, group_of

    def whole(self, data, at, end):
        """The mark and the size of the whole record at byte `at`; the size is 0 where there is none."""
        mark = data[at:at + 2]
        size = self.sizes.get(mark, 0)
        return mark, size if at + size <= end else 0

    def count(self, data, at, end):
        """The byte after the last whole record from byte `at` on, and the count of each mark."""
        counts = dict.fromkeys(self.sizes, 0)
        mark, size = self.whole(data, at, end)
        while size:
            counts[mark] += 1
            at += size
            mark, size = self.whole(data, at, end)
        return at, counts

    def unusable(self, data, at, end):
        """The indices of the whole answers between two bytes that hold a NaN or an infinity."""
        found, number = [], 0
        mark, size = self.whole(data, at, end)
        while size:
            if not self.table[mark].usable(data, at):
                found.append(number)
            at, number = at + size, number + 1
            mark, size = self.whole(data, at, end)
        return found

    def cut(self, data, at, end, most):
        """Copies records from byte `at` on to their groups, up to the first whose group is full (`most` of each), or
        fewer; none only if the first record's group is full, or there is no whole record."""
        order, pieces = bytearray(), [[] for _ in most]
        while len(order) < CHUNK_RECORDS:
            mark, size = self.whole(data, at, end)
            number = self.group_of.get(mark)
            if not size or len(pieces[number]) == most[number]:
                break
            order.append(number)
            pieces[number].append(data[at:at + size])
            at += size
        return Cut(at, bytes(order), list(map(b"".join, pieces)), list(map(len, pieces)))

    def interleave(self, order, sources):
        """The answers to records whose group numbers are in `order`, as bytes valid until the next call, and their
        count: up to the first whose group has none left, or fewer; none only if the first record's group has none."""
        pieces = []
        for number in order:
            source = sources[number]
            size = self.whole(source.data, source.at, source.end)[1]
            if not size:
                break
            pieces.append(source.data[source.at:source.at + size])
            source.at += size
        return b"".join(pieces), len(pieces)


class Buffer(ctypes.Structure):
    """Python's Py_buffer, which gives the address of a read-only mapping."""

    _fields_ = [("address", ADDRESS), ("owner", ctypes.py_object), ("size", ctypes.c_ssize_t), ("rest", ADDRESS * 7)]


class Numbers(ctypes.Structure):
    """bulk.c's numbers."""

    _fields_ = [(name, ctypes.c_uint16) for name in ("first", "count", "width")]


class Group(ctypes.Structure):
    """bulk.c's group."""

    _fields_ = [("bytes", ADDRESS), *((name, ctypes.c_uint64) for name in ("size", "records", "most"))]


class Answers(ctypes.Structure):
    """bulk.c's answers."""

    _fields_ = [("data", ADDRESS), ("at", ctypes.c_uint64), ("end", ctypes.c_uint64)]


@contextlib.contextmanager
def addresses(*some):
    """The addresses of bytes-like objects, valid inside the block."""
    with contextlib.ExitStack() as stack:
        buffers = [Buffer() for _ in some]
        for data, buffer in zip(some, buffers):
            ctypes.pythonapi.PyObject_GetBuffer(ctypes.py_object(data), ctypes.byref(buffer), 0)
            stack.callback(ctypes.pythonapi.PyBuffer_Release, ctypes.byref(buffer))
        yield [buffer.address for buffer in buffers]


class Compiled:
    """The same functions by bulk.c."""

    MARKS, GROUPS = 1 << 16, 3

    def __init__(self, table, group_of=None):
        self.table, self.functions = table, functions()
        self.least = min(layout.size for layout in table.values())
        self.sizes = (ctypes.c_uint16 * self.MARKS)()
        self.places, self.group_of = ((ctypes.c_uint8 * self.MARKS)() for _ in range(2))
        for place, (mark, layout) in enumerate(table.items()):
            number = int.from_bytes(mark, "little")
            self.sizes[number], self.places[number] = layout.size, place
            self.group_of[number] = group_of[mark] if group_of else 0

    @functools.cached_property
    def numbers(self):
        """The position of the numbers in each mark's answer."""
        return (Numbers * len(self.table))(*(layout.floats for layout in self.table.values()))

    @functools.cached_property
    def buffers(self):
        """The bytes that each group's records are copied to."""
        return [(ctypes.c_uint8 * CHUNK_BYTES)() for _ in range(self.GROUPS)]

    @functools.cached_property
    def order(self):
        """The groups of the records that are copied."""
        return (ctypes.c_uint8 * CHUNK_RECORDS)()

    def count(self, data, at, end):
        counts = (ctypes.c_uint64 * len(self.table))()
        with addresses(data) as (address,):
            at = self.functions["count"](address, at, end, self.sizes, self.places, counts)
        return at, dict(zip(self.table, counts))

    def unusable(self, data, at, end):
        found = (ctypes.c_uint32 * ((end - at) // self.least))()
        with addresses(data) as (address,):
            count = self.functions["unusable"](address, at, end, self.sizes, self.places, self.numbers, found)
        return found[:count]

    def cut(self, data, at, end, most):
        groups = (Group * self.GROUPS)(*((ctypes.addressof(room), 0, 0, count)
                                         for room, count in zip(self.buffers, most)))
        with addresses(data) as (address,):
            at = self.functions["cut"](address, at, end, self.sizes, self.group_of, groups, CHUNK_BYTES, self.order,
                                       CHUNK_RECORDS)
        records = [group.records for group in groups]
        pieces = [memoryview(room)[:group.size] for room, group in zip(self.buffers, groups)]
        return Cut(at, bytes(memoryview(self.order)[:sum(records)]), pieces, records)

    def interleave(self, order, sources):
        written = SIZE()
        with addresses(order, *(source.data for source in sources)) as (order_address, *found):
            groups = (Answers * self.GROUPS)(*((data, some.at, some.end) for data, some in zip(found, sources)))
            done = self.functions["interleave"](order_address, len(order), groups, self.sizes, self.buffers[0],
                                                CHUNK_BYTES, ctypes.byref(written))
        for source, group in zip(sources, groups):
            source.at = group.at
        return memoryview(self.buffers[0])[:written.value], done


@functools.lru_cache(maxsize=None)
def functions():
    """The functions of bulk.c by name; None if it is not built, or is older than bulk.c."""
    try:
        if SOURCE.exists() and PATH.stat().st_mtime < SOURCE.stat().st_mtime:
            return None
        library = ctypes.CDLL(str(PATH))
        found = {name: library["sim3_bulk_" + name] for name in FUNCTIONS}
    except (OSError, AttributeError):
        return None
    for name, function in found.items():
        function.argtypes, function.restype = FUNCTIONS[name], SIZE
    return found


def bulk(table, group_of=None):
    """The functions for a table's records, in C where bulk.c is built."""
    return (Compiled if functions() else PurePython)(table, group_of)


@functools.lru_cache(maxsize=None)
def powers():
    """The powers of ten for bulk.c, each scaled by a power of two to 128 bits and rounded up."""
    found = []
    for exponent in range(LEAST_POWER, MOST_POWER + 1):
        above, below = 10 ** max(exponent, 0), 10 ** max(-exponent, 0)
        shift = 128 - above.bit_length() + below.bit_length()
        for bits in (shift, shift - 1):
            whole = -(-(above << max(bits, 0)) // (below << max(-bits, 0)))
            if whole.bit_length() == 128:
                break
        found += divmod(whole, 1 << 64)
    return (ctypes.c_uint64 * len(found))(*found)


def texts(data, at, layout):
    """The numbers of the record at byte `at` as texts, each the shortest decimal that reads back; None if bulk.c is not
    built: the caller then uses floats.py."""
    found = functions()
    if not found:
        return None
    size = found["text"](data[at + 2:at + layout.size], layout.codes.encode(), powers(), TEXT)
    return tuple(TEXT[:size].decode().split())
