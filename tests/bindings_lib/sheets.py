"""The sheets from each language, against a dictionary with the request's rules."""
import ctypes
import random
import struct
import tempfile

import sim3
from .common import bits, frame_list, packed, run, rust_program, same
from .running import doubles, drawn
from sim3 import raw

SHOTS, GETS = 3_000, 1_500

# A store's bytes: two for each sheet number, 512 slots, and how many of these are in use.
SLOT, SLOTS = 2 + 2 + 8 * 8 + 2 * 2, 2 * 65_536
TAIL = SLOTS + 512 * SLOT


class Model:
    """What is kept, by sheet: the take, and the pose's numbers and frames."""

    def __init__(self):
        self.kept = {}

    def put(self, sheet, take, numbers, frames):
        """The number of a refusal or 0; how, and the take that stood before."""
        if sheet not in self.kept:
            if len(self.kept) == 512:
                return 11, None
            self.kept[sheet] = take, numbers, frames
            return 0, (1, 0)
        before = self.kept[sheet][0]
        if take == before:
            return 10, None
        if take > before:
            self.kept[sheet] = take, numbers, frames
        return 0, (2 if take > before else 3, before)

    def get(self, sheet):
        if sheet not in self.kept:
            return 12, None
        take, numbers, frames = self.kept[sheet]
        return 0, (take, bits(packed(numbers)), frames)


class Bytes:
    """A store by the bare calls."""

    def __init__(self, start=None):
        self.store = (ctypes.c_uint8 * raw.SHEETS_SIZE)(*(start or random.Random("dirty").randbytes(raw.SHEETS_SIZE)))
        if start is None:
            same(raw.call("sheets_start", self.store), 0, "sim3_sheets_start")

    def put(self, sheet, take, numbers, frames):
        out, before = frame_list((7, 7)), bytes(self.store)
        status = raw.call("sheets_put", self.store, sheet, take, doubles(numbers), frame_list(frames), out)
        if status:
            same((bytes(self.store) == before, tuple(out)), (True, (7, 7)), "what stays after a refusal")
        return status, None if status else tuple(out)

    def get(self, sheet):
        take, numbers, frames = frame_list((7,)), doubles([7.0] * 8), frame_list((7, 7))
        status = raw.call("sheets_get", self.store, sheet, take, numbers, frames)
        if status:
            same((list(take), list(numbers), list(frames)), ([7], [7.0] * 8, [7, 7]), "the lists after a refusal")
        return status, None if status else (take[0], bits(bytes(numbers)), tuple(frames))


class Package:
    """A store by the Python package."""

    def __init__(self):
        self.sheets = sim3.Sheets()

    def put(self, sheet, take, numbers, frames):
        try:
            answer = self.sheets.put(sheet, take, sim3.Pose(numbers, *frames))
        except sim3.Refusal as refusal:
            assert f"sim3.Sheets.put: refusal {refusal.number}: " in str(refusal), str(refusal)
            return refusal.number, None
        return 0, ({"new": 1, "replaced": 2, "older": 3}[answer.how], answer.before)

    def get(self, sheet):
        try:
            take, pose = self.sheets.get(sheet)
        except sim3.Refusal as refusal:
            return refusal.number, None
        return 0, (take, bits(packed(pose.numbers)), (pose.from_, pose.to))


def shots():
    """Shots of some 700 sheets, so that 512 are soon there, with takes that rise, fall and are the same; 0 and 65,535
    too."""
    draw = random.Random("sheets")
    names = draw.sample(range(65_536), 698) + [0, 65_535]
    return [(draw.choice(names), draw.choice((0, 1, 2, 3, 65_535, draw.randrange(65_536))), drawn(draw),
             (draw.randrange(65_536), draw.randrange(65_536))) for _ in range(SHOTS)]


def in_python():
    model, stores, numbers = Model(), (Bytes(), Package()), set()
    draw = random.Random("asked")
    for at, shot in enumerate(shots()):
        expected = model.put(*shot)
        numbers.add(expected[0])
        for store in stores:
            same(store.put(*shot), expected, f"shot {at}, {type(store).__name__}")
        if at % 2:
            sheet = draw.choice((shot[0], draw.randrange(65_536)))
            expected = model.get(sheet)
            numbers.add(expected[0])
            for store in stores:
                same(store.get(sheet), expected, f"sheet {sheet} after shot {at}, {type(store).__name__}")
    same(numbers, {0, 10, 11, 12}, "the refusals that were seen")


def kept_in(store):
    """What is kept in any bytes: of a sheet the shot in the slot that is named for it, if that slot is in use and holds
    the sheet's number."""
    used, = struct.unpack_from("<H", store, TAIL)
    held = [struct.unpack_from("<2H8d2H", store, SLOTS + SLOT * slot) for slot in range(512)]
    named = [slot % 512 for slot in struct.unpack_from("<65536H", store)]
    return {sheet: (held[slot][1], held[slot][2:10], held[slot][10:])
            for sheet, slot in enumerate(named) if slot < used and held[slot][0] == sheet}


def plain(kept):
    return {sheet: (take, bits(packed(numbers)), frames) for sheet, (take, numbers, frames) in kept.items()}


def full(but=0):
    """A store in which 512 sheets were kept; then in so many slots another number is written, so that they are no
    sheet's."""
    store = Bytes()
    for sheet in range(512):
        store.put(100 * sheet, 1, [1.0] * 8, (1, 1))
    found = bytearray(store.store)
    for slot in range(but):
        struct.pack_into("<H", found, SLOTS + SLOT * 7 * slot, 50_001)
    return bytes(found)


def any_bytes():
    """A store of any bytes: the kept sheets are read from it, a further sheet is refused only if 512 are kept, and a
    refusal changes no byte."""
    draw, numbers = random.Random("any bytes"), set()
    used = lambda n: struct.pack("<H", n)
    starts = [bytes([255]) * raw.SHEETS_SIZE, bytes(TAIL) + used(512), full(), full(1), full(40)]
    starts += [draw.randbytes(TAIL) + used(n) for n in (0, 300, 511, 512, 513, 65_535)]
    for number, start in enumerate(starts):
        model, store = Model(), Bytes(start)
        model.kept = kept_in(start)
        names = draw.sample(range(65_536), 600) + list(model.kept)
        for at in range(1_200):
            sheet = names[at] if at < 600 else draw.choice(names)
            shot = sheet, draw.choice((0, 1, 2, 65_535)), drawn(draw), (draw.randrange(65_536), draw.randrange(65_536))
            expected = model.put(*shot)
            numbers.add(expected[0])
            same(store.put(*shot), expected, f"start {number}, shot {at}")
            same(store.get(sheet), model.get(sheet), f"start {number}, sheet {sheet} after shot {at}")
        same(plain(kept_in(bytes(store.store))), plain(model.kept), f"start {number}: what is kept")
        same(len(model.kept), 512, f"start {number}: how many are kept")
    same(numbers, {0, 10, 11}, "the refusals that were seen")


def lengths():
    """Every other length is refused by 100, and nothing is written."""
    right = {"store": raw.SHEETS_SIZE, "x": 8, "x_frames": 2, "take": 1, "out_frames": 2}
    for name, signature in raw.RUNNING.items():
        if not name.startswith("sheets"):
            continue
        for wrong in (argument for argument, _, use in signature if use != raw.NUMBER):
            for add in (-1, 1, 1000):
                store = Bytes()
                store.put(5, 5, [1.0] * 8, (1, 1))
                arguments = []
                for argument, kind, use in signature:
                    if use == raw.NUMBER:
                        arguments.append(5)
                        continue
                    length = right.get(argument) or (8 if name == "sheets_get" else 2)
                    filled = bytes(store.store) if argument == "store" else bytes(kind(1)) * length
                    filled += bytes(8_000)
                    count = length + (add if argument == wrong else 0)
                    arguments.append((kind * count).from_buffer_copy(filled[:count * ctypes.sizeof(kind)]))
                lists = [x for x in arguments if isinstance(x, ctypes.Array)]
                before = [bytes(x) for x in lists]
                same(raw.call(name, *arguments), 100, f"sim3_{name} with {wrong} of {add:+}")
                same([bytes(x) for x in lists] == before, True, f"sim3_{name} with {wrong} of {add:+}: nothing written")


def in_rust():
    with tempfile.TemporaryDirectory() as work:
        program = rust_program("tests/bindings_lib/sheets.rs", work)
        output = run([program], b"".join(struct.pack("<2Q8d2Q", sheet, take, *numbers, *frames)
                                         for sheet, take, numbers, frames in shots()))
    model, at = Model(), 0
    for shot in shots():
        number, answer = model.put(*shot)
        not_kept = 12, (0, bits(bytes(64)), (0, 0))
        status, (take, found, frames) = model.get(shot[0]) if shot[0] in model.kept else not_kept
        words = struct.unpack_from("<15Q", output, at)
        same((words[:3], words[3:5], bits(output[at + 40:at + 104]), words[13:]),
             ((number, *(answer or (0, 0))), (status, take), found, frames), f"shot {at // 120} in Rust")
        at += 120
    same(at, len(output), "bytes of sheets.rs")


TESTS = [in_python, any_bytes, lengths, in_rust]
