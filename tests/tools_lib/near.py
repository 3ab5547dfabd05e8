"""`jobs near`: the shots beside another arm, nearest first."""
import struct

from .arms import ENDS, VALUES
from .common import file, holds, jobs, same, with_library
from jobs_lib.floats import DOUBLE, SINGLE

# the arm that ends there, and how many patterns behind its end z lies
OFFSETS = [(2, 3), (1, 0), (4, -1), (3, -700), (1, 40_000)]


# At f32 the patterns of z, and the output: both sides of an end, and a tie, where up is given.
SINGLES = {0x3A7CE157: "1 single step up to arm 2 (7 terms) from arm 1 (4 terms)",
           0x4017C497: "2 single steps down to arm 4 (11 terms) from arm 5 (closed)",
           0x3F9C1144: "8,106,834 single steps up to arm 5 (closed) from arm 4 (11 terms)"}


def job(mark, points, code="d"):
    return b"".join(mark + struct.pack(f"<12{code}", sigma, z, *VALUES) for sigma, z in points)


def shots():
    return [(0.0, DOUBLE.from_bits(ENDS[arm] + offset)) for arm, offset in OFFSETS]


def steps_of(text):
    """The record's number and the line of each shot."""
    return [(int(line.split()[1]), line.split("  ")[2]) for line in text.splitlines() if line.startswith("record ")]


@with_library
def nearest_first():
    data = job(b"CO", shots()[:3]) + job(b"AR", shots()[3:])
    text = jobs("near", file("near", data))[0].decode()
    same(steps_of(text), [(2, "1 step down to arm 1 (6 terms) from arm 2 (11 terms)"),
                          (3, "1 step up to arm 5 (closed) from arm 4 (19 terms)"),
                          (1, "4 steps down to arm 2 (11 terms) from arm 3 (14 terms)"),
                          (4, "700 steps up to arm 4 (19 terms) from arm 3 (14 terms)")], "the shots")
    holds(text, "4 of 5 shots within 1,000 steps of another arm")
    same(len(steps_of(jobs("near", "--within", "50000", file("near", data))[0].decode())), 5,
         "shots within 50,000 steps")
    same(len(steps_of(jobs("near", "--within", "1", data=data)[0].decode())), 2, "shots within one step")


@with_library
def singles_by_their_own_steps():
    data = job(b"CO", shots()[:1]) + job(b"co", [(0.0, SINGLE.from_bits(b)) for b in SINGLES], "f")
    steps_shown = steps_of(jobs("near", "--within", "10000000", file("near", data))[0].decode())
    same(steps_shown, [(2, SINGLES[0x3A7CE157]), (3, SINGLES[0x4017C497]),
                       (1, "4 steps down to arm 2 (11 terms) from arm 3 (14 terms)"), (4, SINGLES[0x3F9C1144])],
                       "both widths")
    same(len(steps_of(jobs("near", file("near", data))[0].decode())), 3, "shots of both widths within 1,000 steps")


@with_library
def what_is_passed_over():
    points = [(2.0, 1.0), (float("nan"), 1.0), (0.0, -1.0), (0.0, float("inf"))]
    text = jobs("near", file("near", job(b"CO", points) + b"JI" + bytes(248)))[0].decode()
    holds(text, "0 of 4 shots", "1 shot with the same arm at every z", "3 shots passed over", "1 record of other marks")


@with_library
def what_is_damaged():
    whole = job(b"CO", shots()[:1])
    text = jobs("near", file("near", whole + b"CO\0"), status=1)[0].decode()
    holds(text, "1 of 1 shot", f"byte {len(whole)}: the file ends inside a record")
    same(jobs("near", file("near", b""))[0].decode(), "0 of 0 shots within 1,000 steps of another arm\n",
         "an empty job")


def wrong_words():
    for word in ("0", "-1", "few", "1.5"):
        holds(jobs("near", "--within", word, status=2)[1], "is no count of steps; expected a whole number from 1")
    holds(jobs("near", "no such file", status=2)[1], "cannot read no such file")


TESTS = [nearest_first, singles_by_their_own_steps, what_is_passed_over, what_is_damaged, wrong_words]
