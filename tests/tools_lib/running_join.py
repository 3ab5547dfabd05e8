"""CH and RN: the running join in `jobs make`, `show` and `diff`, and in the stored runs."""
import collections
import math
import struct

from .common import ROOT, end, file, holds, jobs, makes_nothing, program, same, with_program
from jobs_lib import host
from jobs_lib.layout import ANSWER, JOB
from jobs_lib.records import walk

POSE = (1, 0, 0, 0, 1, 2, 3, 0.5)
LINE = "CH pose.q 1 0 0 0; pose.t 1 2 3; pose.sigma 0.5; frames"


def ch(frames, up, sigma=0.5):
    return b"CH" + struct.pack("<8d2Hd", *POSE[:7], sigma, *frames, up)


def made(*lines):
    return jobs("make", data="\n".join(lines).encode())[0]


def records_in_their_places():
    """A pose, its frames and up; two bytes of n, little endian; up may be said."""
    same(made("CH 1 0 0 0 1 2 3 0.5 frames 258 65535 7"), ch((258, 65535), 7), "CH in numbers")
    same(made(f"{LINE} 3 7; up 1.5"), ch((3, 7), 1.5), "CH in groups")
    for line, n in [("RN 3", 3), ("RN n 0", 0), ("RN 65535", 65535), ("rn".upper() + " 258;", 258)]:
        same(made(line), b"RN" + struct.pack("<H", n), line)


def up_that_is_left_out():
    """It is that of the running pose: of the lines before, but for those whose frames do not meet."""
    lines = (f"{LINE} 3 1", f"{LINE} 7 3", "RN 2", f"{LINE} 9 3",
             "MU 1 0 0 0 1 2 3 0.25 frames 3 1 1 0 0 0 1 2 3 7 frames 7 3", f"{LINE} 9 7", f"{LINE} 4 9")
    own = [exponent for exponent in (0.5, 0.5, None, 1.0, None, 1.0, 1.5)]
    data, at = made(*lines), 0
    for exponent, layout in zip(own, map(JOB.get, (b"CH", b"CH", b"RN", b"CH", b"MU", b"CH", b"CH"))):
        if exponent is not None:
            same(struct.unpack_from("<d", data, at + 70)[0], host.exponential(exponent), f"up at byte {at}")
        at += layout.size
    same(at, len(data), "bytes")
    same(made(f"{LINE} 3 1", f"{LINE} 3 3; up nan", f"{LINE} 9 3")[-8:], struct.pack("<d", host.exponential(1.0)),
         "up behind a given one")


def bad_lines():
    makes_nothing([
        ("RN", "RN has 0 numbers;", "1 (n)"), ("RN 1 2", "RN has 2 numbers;", "1 (n)"),
        ("RN 65536", "'65536' is no n", "a whole number from 0 to 65535"),
        ("RN -1", "'-1' is no n", "a whole number"),
        ("RN 1.0", "'1.0' is no n", "a whole number"), ("RN frames 1", "RN has 2 numbers", "1 (n)"),
        (f"{LINE} 1 70000", "'70000' is no frame", "a whole number from 0 to 65535"),
        ("CH 1 0 0 0 1 2 3 0.5", "CH has 8 numbers, and pose.frames is missing: put from and to",
         "10 (pose.q 4; pose.t 3; pose.sigma; pose.frames 2), or 11"),
        ("ch 1", "unknown mark 'ch'", "ji CH RN"), ("rn 1", "unknown mark 'rn'", "ji CH RN")])


def as_text():
    """A line for each, which make reads again; n and frames as whole numbers, in bytes too."""
    data = b"RN\2\1" + ch((3, 7), 1.5)
    text = jobs("show", "--in", data=data)[0].decode()
    same(text, "RN n 258\nCH pose.q 1.0 0.0 0.0 0.0; pose.t 1.0 2.0 3.0; pose.sigma 0.5; pose.frames 3 7; up 1.5\n",
         "the job")
    same(made(text), data, "the bytes made again")
    answer_bytes = b"RN\2\1CH" + struct.pack("<8d2H", *POSE, 65535, 0) + b"NO\x09" + end(3, 1)
    same(jobs("show", data=answer_bytes)[0].decode(),
         "RN n 258\nCH running.q 1.0 0.0 0.0 0.0; running.t 1.0 2.0 3.0; running.sigma 0.5; running.frames 65535 0\n"
         "NO refusal 9  # frames do not meet: the left pose's from is not the right pose's to\nZZ begun 3; answered 2; "
         "refused 1; unusable 0; CO 1; CH 1; RN 1\n", "the answers")
    holds(jobs("show", "--hex", data=answer_bytes)[0].decode(),
          "       0  52 4e                    RN\n       2  02 01                    n = 258\n",
          "      70  ff ff                    running.frames.from = 65535\n")
    holds(jobs("show", "--in", data=data[:-1], status=1)[1],
          "byte 4: the file ends inside a record: CH takes 78 bytes, 77 are there")
    holds(jobs("show", "--in", data=b"RN\1", status=1)[1],
          "the file ends inside a record: RN takes 4 bytes, 3 are there")


def compared():
    """The difference of another n is a number, of a frame that it is another one, of a number the steps."""
    def answers(n, frame, sigma):
        return b"RN" + struct.pack("<H", n) + b"CH" + struct.pack("<8d2H", *POSE[:7], sigma, frame, 1) + end(2)

    old, new = file("old", answers(3, 7, 0.5)), file("new", answers(2, 8, math.nextafter(0.5, 1)))
    text = jobs("diff", old, new, status=1)[0].decode()
    holds(text, "record 1  RN  n  3  ->  2  -1\n", "record 2  CH  running.frames.from  7  ->  8  another frame\n",
          "record 2  CH  running.sigma  0.5  ->  0.5000000000000001  1 ulp\n",
          "different: 2 records (RN 1, CH 1), 3 numbers\n")
    holds(jobs("diff", old, old)[0].decode(), "equal: 2 records")


def stored_joins():
    """In the stored runs: RN is answered with its n; CH by 9 exactly where its frames do not meet the running ones,
    else with theirs joined and the log scales summed."""
    seen = collections.Counter()
    for path in sorted((ROOT / "tests" / "runs").glob("*.in")):
        job, answers, running = path.read_bytes(), path.with_suffix(".out").read_bytes(), None
        for (at, record), (view_at, answer) in zip(walk(job, JOB), walk(answers, ANSWER)):
            where = f"{path.name}: the record at byte {at}"
            if record.mark == "RN":
                same(answers[view_at:view_at + 4], job[at:at + 4], where)
                seen["RN", struct.unpack_from("<H", job, at + 2)[0]] += 1
            if record.mark != "CH":
                continue
            sigma, begin, to = struct.unpack_from("<d2H", job, at + 58)
            if running and running[1] != to:
                same(answers[view_at:view_at + 3], b"NO\x09", where)
                seen["refused"] += 1
                continue
            seen["joined" if running else "first"] += 1
            running = (running[0] + sigma, begin, running[2]) if running else (sigma, begin, to)
            found = struct.unpack_from("<d2H", answers, view_at + 58)
            same((answer.mark, found[1:]), ("CH", running[1:]), where)
            assert found[0] == running[0] or found[0] != found[0] and running[0] != running[0], where
    for case in ("first", "joined", "refused", *(("RN", n) for n in (0, 1, 2, 3, 65535))):
        assert seen[case] >= 3, f"{seen[case]} stored records with {case}; expected 3 or more"


@with_program
def fresh_with_each_run():
    """A run knows nothing of the one before: its first CH sets the pose, and n is 0."""
    first, second = b"RN\1\0" + ch((3, 1), 1) + ch((7, 3), 1), ch((4, 9), math.nan) + ch((5, 4), 1)
    alone = program(second)
    program(first)
    same(program(second), alone, "the second job")
    same(alone[2:70], struct.pack("<8d2H", *POSE, 4, 9), "its first pose")


TESTS = [records_in_their_places, up_that_is_left_out, bad_lines, as_text, compared, stored_joins, fresh_with_each_run]
