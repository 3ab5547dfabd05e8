"""The job table: what stands in every record of a job file and of an answer file.

All else reads and writes records through these layouts; a new mark is a new entry here.
"""
import struct
from math import isfinite
from typing import NamedTuple, Optional, Tuple

from .floats import DOUBLE, SINGLE, WIDTHS

MOST_RECORDS = 1_000_000  # the job program answers no more
MOST_SHEETS = 512  # it keeps no more
UINT16 = "H"  # the code of a frame, of RN's n, of a sheet or a take: a whole number of 16 bits
JOIN, SHEETS = (b"CH", b"RN"), (b"SH", b"SQ")  # the marks of the running join and of the kept sheets
STATE = JOIN + SHEETS  # those whose answers depend on the records before them
SCALED, SERIES = ".scaled", "series("  # how the name of a field that is 1 or 0 ends or begins

REFUSALS = {
    1: "squared angle z below zero",
    2: "e is +0 or -0 in the block inverse",
    3: "row or column of a 3x3 matrix above 2",
    4: "term count k above 28, or above 30 for v alone",
    5: "point list of a wrong length",
    6: "unknown mark",
    7: "input ends inside a mark or record",
    8: "root of a NaN or of +inf",
    9: "frames do not meet: the left pose's from is not the right pose's to",
    10: "take equal to the one kept for its sheet",
    11: "a 513th sheet",
    12: "SQ on a sheet never kept",
}
ARMS = {1: "6 terms", 2: "11 terms", 3: "14 terms", 4: "19 terms", 5: "closed"}
SINGLE_ARMS = {1: "4 terms", 2: "7 terms", 3: "9 terms", 4: "11 terms", 5: "closed"}
BY_SERIES = {0: "", 1: "v0, w0 by series"}
NEW, REPLACES, OLDER = 1, 2, 3
OUTCOMES = {NEW: "new", REPLACES: "replaces", OLDER: "older, not kept"}


class Group(NamedTuple):
    """Numbers that stand together under one name, as `phi` or `left.a`."""

    name: str
    parts: Tuple[str, ...]  # what each number adds to the name: ".x", "[1][2]", nothing
    about: str
    # struct's letter: d a double, f a single, B a byte, H a frame, n, sheet or take, I a 32-bit count
    code: str = DOUBLE.code
    names: Optional[dict] = None  # the meanings of its numbers, if they have names

    @property
    def frames(self):
        """Whether these are a pose's frames."""
        return self.code == UINT16 and len(self.parts) == 2


class Layout:
    """A record: its two-byte mark and its groups of numbers, little endian, nothing between."""

    def __init__(self, mark, about, *groups):
        self.mark, self.about, self.groups = mark, about, groups
        self.fields = [g.name + part for g in groups for part in g.parts]
        self.codes = "".join(g.code * len(g.parts) for g in groups)
        self.names = [g.names for g in groups for _ in g.parts]
        self.frames = {i for i, g in enumerate(g for g in groups for _ in g.parts) if g.frames}
        self.named = [i for i, names in enumerate(self.names) if names]
        self.flags = {i for i, field in enumerate(self.fields)
                      if field.endswith(SCALED) or field.startswith(SERIES)}
        self.widths = [WIDTHS.get(code) for code in self.codes]  # of numbers; none of bytes, frames and counts
        self.width = next(filter(None, self.widths), DOUBLE)
        self.numbers = struct.Struct("<" + self.codes)
        self.bits = struct.Struct("<" + self.codes.translate({ord(w.code): w.bits_code for w in WIDTHS.values()}))
        self.size = 2 + self.numbers.size

    def kind(self, i):
        """The kind of number in a field that has names: `refusal`, `arm`."""
        return self.fields[i].partition("(")[0]

    def meaning(self, i, number):
        """The meaning of a number; empty in a field without names."""
        names = self.names[i] or {number: ""}
        return names.get(number, f"a number that no {self.kind(i)} has")

    def usable(self, data, at):
        """Whether no number of the record at byte `at` is a NaN or an infinity."""
        numbers = self.numbers.unpack_from(data, at + 2)
        # A sum is finite only of finite numbers; a sum of such may still overflow.
        return isfinite(sum(numbers)) or all(map(isfinite, numbers))

    @property
    def floats(self):
        """The byte at which the first of an answer's doubles or singles stands, how many they are, and the bytes of
        each.
        They stand in one run, as in every answer."""
        first, count = self.codes.find(self.width.code), self.codes.count(self.width.code)
        assert self.width.code * count in self.codes, f"the numbers of {self.mark} stand apart"
        return 2 + struct.calcsize("<" + self.codes[:max(first, 0)]), count, self.width.size

    def offsets(self):
        """Each group with the byte at which it starts, counted from the mark."""
        at = 2
        for group in self.groups:
            yield at, group
            at += struct.calcsize("<" + group.code * len(group.parts))


ONE = ("",)
XYZ = (".x", ".y", ".z")
WXYZ = (".w", ".x", ".y", ".z")
ROWS = ("[0]", "[1]", "[2]")
MATRIX = tuple(f"[{row}][{column}]" for column in range(3) for row in range(3))
VALUE_PARTS = (".root", ".sin_half", ".cos_half", ".sin", ".E", ".M", ".E0", ".M0", ".up", ".down")
COEFFICIENTS = (".v0", ".v1", ".v2", ".w0", ".w1", ".w2", ".dv1", ".dv2", ".chi_delta", SCALED)

SIGMA = Group("sigma", ONE, "log scale")
ANGLE = Group("z", ONE, "squared angle")
VALUES = Group("values", VALUE_PARTS, "the ten function values")
UP = Group("up", ONE, "e^sigma")
UP_OF_RUNNING = Group("up", ONE, "e^sigma of the running pose; in the first CH any number")
DOWN = Group("down", ONE, "e^-sigma")
EVERY = Group("n", ONE, "so many products, 2 bytes; 0 for never", UINT16)
SHEET = Group("sheet", ONE, "number of the sheet, 2 bytes", UINT16)
TAKE = Group("take", ONE, "number of the take, 2 bytes", UINT16)
OUTCOME = Group("outcome", ONE, ", ".join(f"{number} = {name}" for number, name in OUTCOMES.items()), "B", OUTCOMES)
BEFORE = Group("before", ONE, "the take that stood before, 2 bytes; 0 with a new sheet", UINT16)
POINT = Group("point", XYZ, "a point")
TANGENT = (Group("phi", XYZ, "rotation vector"), Group("rho", XYZ, "translation part"), SIGMA)
ROTATION_JACOBIANS = (Group("J", MATRIX, "rotation Jacobian of phi"),
                      Group("Jinv", MATRIX, "its inverse"))


def frames(name):
    return Group(name, (".from", ".to"), "frame numbers, 2 bytes each", UINT16)


def pose(name):
    return (Group(name + ".q", WXYZ, "quaternion"), Group(name + ".t", XYZ, "translation"),
            Group(name + ".sigma", ONE, "log scale"), frames(name + ".frames"))


def block(name):
    """A block Jacobian, whose matrix has the rows (a, 0, 0), (b, c, f), (0, 0, e)."""
    matrices = (Group(f"{name}.{m}", MATRIX, f"3x3 block {m}") for m in "abc")
    return (*matrices, Group(name + ".f", ROWS, "column f"), Group(name + ".e", ONE, "number e"))


def coefficients(name, about):
    return Group(name, COEFFICIENTS, "nine coefficients and the flag " + about)


def arm(sign, about):
    """The arm of one sign, and whether the closed arm's v0 and w0 came from series."""
    numbered = ", ".join(f"{number} = {name}" for number, name in ARMS.items())
    return (Group(f"arm({sign})", ONE, f"arm {about}: {numbered}", "B", ARMS),
            Group(f"{SERIES}{sign})", ONE, f"1 where v0 and w0 of the closed arm {about} came from "
                                           "series, else 0", "B", BY_SERIES))


PAIR = (coefficients("coeffs(+)", "at sigma"), coefficients("coeffs(-)", "at -sigma"))


def table(*layouts):
    """Layouts by their marks as they stand in a file."""
    return {layout.mark.encode(): layout for layout in layouts}


JOB = table(
    Layout("EX", "exponential of a tangent", *TANGENT, VALUES, frames("frames")),
    Layout("CO", "coefficients of both signs", SIGMA, ANGLE, VALUES),
    Layout("PA", "block pair", *TANGENT, VALUES, *ROTATION_JACOBIANS),
    Layout("AC", "action of a pose on a point", *pose("pose"), UP, POINT),
    Layout("MU", "product of two poses", *pose("left"), *pose("right"), UP),
    Layout("IN", "inverse of a pose", *pose("pose"), DOWN),
    Layout("JI", "inverse of a block Jacobian", *block("block")),
    Layout("AR", "arms and coefficients of both signs", SIGMA, ANGLE, VALUES),
)

ANSWER = table(
    Layout("EX", "the pose", *pose("pose")),
    Layout("CO", "the coefficients", *PAIR),
    Layout("PA", "four blocks", *block("left"), *block("left_inv"), *block("right"),
           *block("right_inv")),
    Layout("AC", "the moved point", POINT),
    Layout("MU", "the product", *pose("product")),
    Layout("IN", "the inverse", *pose("inverse")),
    Layout("JI", "the inverse", *block("inverse")),
    Layout("AR", "the arms and the coefficients", *arm("+", "at sigma"), *arm("-", "at -sigma"), *PAIR),
    Layout("NO", "a refusal", Group("refusal", ONE, "its number", "B", REFUSALS)),
)


def in_singles(layout):
    """The same record with 4-byte numbers; its mark has small letters."""
    groups = (g._replace(code=SINGLE.code) if g.code == DOUBLE.code else g for g in layout.groups)
    return Layout(layout.mark.lower(), layout.about, *groups)


# The marks of doubles whose answers follow from their records alone; all but AR are there in small
# letters too. Behind them stand the marks of the running join and of the kept sheets.
DOUBLES = tuple(JOB)
for layouts in (JOB, ANSWER):
    layouts.update(table(*(in_singles(layouts[mark]) for mark in DOUBLES if mark != b"AR")))
JOB.update(table(Layout("CH", "a pose to be joined to the running one", *pose("pose"), UP_OF_RUNNING),
                 Layout("RN", "after how many products the running quaternion is renormalised", EVERY),
                 Layout("SH", "a take of a sheet", SHEET, TAKE, *pose("pose")),
                 Layout("SQ", "which take is kept of a sheet", SHEET)))
ANSWER.update(table(Layout("CH", "the running pose", *pose("running")),
                    Layout("RN", "the same", EVERY),
                    Layout("SH", "what became of the take", OUTCOME, BEFORE),
                    Layout("SQ", "the highest take", TAKE, *pose("pose"))))


def without_frames(layouts):
    """A table of the older format, in which poses had no frames."""
    return table(*(Layout(layout.mark, layout.about, *(g for g in layout.groups if not g.frames))
                   for mark, layout in layouts.items() if layout.width is DOUBLE and mark not in STATE))


OLDER_JOB, OLDER_ANSWER = without_frames(JOB), without_frames(ANSWER)

# The counts behind the last record of an answer file: four, the last three of which add up to the first,
# and the records begun by mark, which add up to it too.
TOTALS = (Group("begun", ONE, "records begun", "I"),
        Group("answered", ONE, "records answered with finite numbers alone", "I"),
        Group("refused", ONE, "records refused", "I"),
        Group("unusable", ONE, "records whose answer holds a NaN or an infinity", "I"))
PLAIN = tuple(mark.decode() for mark in DOUBLES if mark != b"AR")
COUNTED = (*PLAIN, *(mark.lower() for mark in PLAIN), "AR", *(mark.decode() for mark in STATE))
UNKNOWN = "unknown"
END = Layout("ZZ", "the end", *TOTALS, *(Group(mark, ONE, f"{mark} records begun", "I") for mark in COUNTED),
             Group(UNKNOWN, ONE, "unknown and half marks", "I"))
OLDER_END = Layout("ZZ", "the end, before records were counted by mark", *TOTALS)
