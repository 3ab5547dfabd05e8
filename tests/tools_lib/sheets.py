"""SH and SQ: the kept sheets in `jobs make`, `show`, `diff` and `sheets`, and in the stored runs."""
import collections
import struct

from .common import ROOT, end, file, holds, jobs, makes_nothing, program, same, with_program
from jobs_lib.layout import ANSWER, JOB
from jobs_lib.records import walk

POSE = (1, 0, 0, 0, 1, 2, 3, 0.5)
LINE = "pose.q 1 0 0 0; pose.t 1 2 3; pose.sigma 0.5; frames 3 7"
MOST = 512


def sh(sheet, take, pose=POSE, frames=(3, 7)):
    return b"SH" + struct.pack("<2H8d2H", sheet, take, *pose, *frames)


def sq(sheet):
    return b"SQ" + struct.pack("<H", sheet)


def sh_answer(outcome, before):
    return b"SH" + struct.pack("<BH", outcome, before)


def sq_answer(take, pose=POSE, frames=(3, 7)):
    return b"SQ" + struct.pack("<H8d2H", take, *pose, *frames)


def made(*lines):
    return jobs("make", data="\n".join(lines).encode())[0]


def records_in_their_places():
    """Two bytes of sheet and two of take before the pose, little endian; a sheet alone."""
    same(made("SH 258 65535 1 0 0 0 1 2 3 0.5 3 7"), sh(258, 65535), "SH in numbers")
    same(made(f"SH sheet 0; take 1; {LINE}"), sh(0, 1), "SH in groups")
    for line, sheet in [("SQ 3", 3), ("SQ sheet 0", 0), ("SQ 65535;", 65535), ("SQ sheet 258", 258)]:
        same(made(line), sq(sheet), line)


def bad_lines():
    makes_nothing([
        ("SQ", "SQ has 0 numbers;", "1 (sheet)"), ("SQ 1 2", "SQ has 2 numbers;", "1 (sheet)"),
        ("SQ 65536", "'65536' is no sheet", "a whole number from 0 to 65535"),
        ("SQ -1", "'-1' is no sheet", "a whole number"),
        (f"SH 1 70000 {LINE}", "'70000' is no take", "a whole number from 0 to 65535"),
        (f"SH 1.5 1 {LINE}", "'1.5' is no sheet", "a whole number"),
        (f"SH take 1; sheet 2; {LINE}", "take after 0 numbers, where sheet begins", "12 (sheet; take; pose.q 4"),
        ("SH 1 2 1 0 0 0 1 2 3 0.5", "SH has 10 numbers, and pose.frames is missing: put from and to",
         "12 (sheet; take; pose.q 4; pose.t 3; pose.sigma; pose.frames 2)"),
        ("sh 1", "unknown mark 'sh'", "CH RN SH SQ"), ("sq 1", "unknown mark 'sq'", "CH RN SH SQ")])


def as_text():
    """A line for each, which make reads again; an outcome is shown in words, in bytes too."""
    data = sh(258, 7) + sq(258)
    text = jobs("show", "--in", data=data)[0].decode()
    same(text,
         "SH sheet 258; take 7; pose.q 1.0 0.0 0.0 0.0; pose.t 1.0 2.0 3.0; pose.sigma 0.5; pose.frames 3 7\n"
         "SQ sheet 258\n", "the job")
    same(made(text), data, "the bytes made again")
    answers = (sh_answer(1, 0) + sh_answer(2, 258) + sh_answer(3, 65535) + sq_answer(7) + b"NO\x0aNO\x0bNO\x0c"
               + end(7, 3))
    same(jobs("show", data=answers)[0].decode().splitlines()[:-1],
         ["SH outcome 1; before 0  # new", "SH outcome 2; before 258  # replaces",
          "SH outcome 3; before 65535  # older, not kept",
          "SQ take 7; pose.q 1.0 0.0 0.0 0.0; pose.t 1.0 2.0 3.0; pose.sigma 0.5; pose.frames 3 7",
          "NO refusal 10  # take equal to the one kept for its sheet", "NO refusal 11  # a 513th sheet",
          "NO refusal 12  # SQ on a sheet never kept"], "the answers")
    holds(jobs("show", "--hex", data=answers)[0].decode(),
          "       5  53 48                    SH\n       7  02                       outcome = 2 (replaces)\n"
          "       8  02 01                    before = 258\n", "      17  07 00                    take = 7\n")
    holds(jobs("show", "--in", data=data[:-1], status=1)[1],
          "byte 74: the file ends inside a record: SQ takes 4 bytes, 3 are there")
    holds(jobs("show", "--in", data=sh(1, 1)[:-1], status=1)[1],
          "the file ends inside a record: SH takes 74 bytes, 73 are there")
    lost = sq_answer(7, (float("nan"), *POSE[1:])) + end(1, 0, 1)
    holds(jobs("show", "--unusable", data=lost)[0].decode(), "record 1  SQ  pose.q.w nan\n")


def compared():
    """Another outcome is named; of another take, how much it differs."""
    old = file("old", sh_answer(1, 0) + sq_answer(7) + end(2))
    new = file("new", sh_answer(2, 3) + sq_answer(9, POSE, (3, 8)) + end(2))
    text = jobs("diff", old, new, status=1)[0].decode()
    holds(text, "record 1  SH  outcome  1 (new)  ->  2 (replaces)  another outcome\n",
          "record 1  SH  before  0  ->  3  +3\n",
          "record 2  SQ  take  7  ->  9  +2\n", "record 2  SQ  pose.frames.to  7  ->  8  another frame\n",
          "different: 2 records (SH 1, SQ 1), 4 numbers\n")
    holds(jobs("diff", old, old)[0].decode(), "equal: 2 records")


JOB_OF_TAKES = (b"RN\2\0" + sh(5, 3) + sh(5, 3) + sh(9, 0) + sh(5, 4, (2, *POSE[1:])) + sh(5, 1) + sq(5) + sq(6)
                + sh(5, 9) + sh(5, 9) + sq(5))
ANSWERS_OF_TAKES = (b"RN\2\0" + sh_answer(1, 0) + b"NO\x0a" + sh_answer(1, 0) + sh_answer(2, 3) + sh_answer(3, 4)
                    + sq_answer(4, (2, *POSE[1:])) + b"NO\x0c" + sh_answer(2, 4) + b"NO\x0a" + sq_answer(9))
TABLE = ("sheet  take  record  retaken  older  same  asked\n"
         "    5     9       9        2      1     2      2\n"
         "    9     0       4        0      0     0      0\n"
         "2 sheets kept, room for 510 more; 1 retaken, 2 times in all\n"
         "refused by 10 (take equal to the one kept for its sheet): 2 records, numbers 3, 10\n"
         "refused by 12 (SQ on a sheet never kept): 1 record, number 8\n"
         "1 record of other marks\n")
ROWS = ("what,sheet,take,record,retaken,older,same,asked,refusal\nkept,5,9,9,2,1,2,2,\nkept,9,0,4,0,0,0,0,\n"
        "refused,5,3,3,,,,,10\nrefused,6,,8,,,,,12\nrefused,5,9,10,,,,,10\n")


def kept_takes():
    """What is kept at the end, how often it was retaken and what was refused; the same with answers and without, as
    text and as values."""
    job, answers = file("job", JOB_OF_TAKES), file("answers", ANSWERS_OF_TAKES + end(11, 3))
    for files in ((job,), (job, answers)):
        same(jobs("sheets", *files)[0].decode(), TABLE, "the table")
        same(jobs("sheets", "--csv", *files), (ROWS.encode(), ""), "the values")
    same(jobs("sheets", "-", data=JOB_OF_TAKES)[0].decode(), TABLE, "from standard input")
    same(jobs("sheets", file("without", b"RN\1\0"))[0].decode(),
         "0 sheets kept, room for 512 more; 0 retaken, 0 times in all\n1 record of other marks\n", "no sheets")


def room_for_512():
    """A 513th sheet is refused, a take of a kept one is not; long lists of refused records are cut in the text
    alone."""
    job = b"".join(sh(3 * n, 2) for n in range(MOST))
    job += b"".join(sh(3 * n + 1, 2) + sh(3 * n, 1 + 2 * (n % 2)) for n in range(40))
    text = jobs("sheets", file("job", job))[0].decode()
    holds(text, "\n512 sheets kept, no room for another; 20 retaken, 20 times in all\n",
          "refused by 11 (a 513th sheet): 40 records, numbers 513, 515, 517, ",
          " and 28 more (jobs sheets --csv lists them)\n", "\n    0     2       1        0      1     0      0\n",
          "\n    3     3     516        1      0     0      0\n")
    same(jobs("sheets", "--csv", file("job", job))[0].count(b"\nrefused,"), 40, "refused rows")


def other_answers():
    """Answers that the records do not give are named, as are cut files and files of the other kind."""
    job = file("job", JOB_OF_TAKES)

    def sheets(answers, status=1):
        return jobs("sheets", job, file("answers", answers), status=status)[0].decode()

    for old, new, message in [(sh_answer(2, 3), sh_answer(2, 4),
                               "record 5  SH  told SH 2 (replaces), before 4; the records before it give SH 2 "
                               "(replaces), before 3\n"),
                              (sh_answer(3, 4), b"NO\x0a",
                               "record 6  SH  told NO 10 (take equal to the one kept for its sheet); the records "
                               "before it give SH 3 (older, not kept), before 4\n"),
                              (b"NO\x0c", sq_answer(0),
                               "record 8  SQ  told SQ take 0; the records before it give NO 12 (SQ on a sheet never "
                               "kept)\n"),
                              (sq_answer(9), sq_answer(9, POSE, (3, 8)),
                               "record 11  SQ  told another pose than that of record 9, which brought the take\n")]:
        data = ANSWERS_OF_TAKES.replace(old, new)
        refused = sum(1 for _, layout in walk(data, ANSWER) if layout.mark == "NO")
        text = sheets(data + end(11, refused))
        holds(text, TABLE, message)
        same(jobs("sheets", "--csv", job, file("answers", data + end(11, refused)), status=1),
             (ROWS.encode(), f"jobs: {message}"), "the values and the message")
    holds(sheets(ANSWERS_OF_TAKES), "ZZ and its counts are missing")
    holds(sheets(ANSWERS_OF_TAKES[:-72] + end(10, 3)), "JOBS has 11 records to be answered, ANSWERS has 10\n")
    holds(jobs("sheets", file("cut", JOB_OF_TAKES[:-1]), status=1)[0].decode(), "JOBS: byte ",
          "the file ends inside a record: SQ takes 4 bytes, 3 are there\n")
    holds(jobs("sheets", file("answers", ANSWERS_OF_TAKES + end(11, 3)), status=2)[1],
          "is an answer file; expected JOBS, then ANSWERS")
    holds(jobs("sheets", job, job, status=2)[1], "is not an answer file; expected JOBS, then ANSWERS")
    holds(jobs("sheets", "-", "-", status=2)[1], "both standard input")
    holds(jobs("sheets", job, file("other", b"EX" + bytes(68) + end(1)), status=2)[1],
          "record 1 is RN in JOBS and EX in ANSWERS")
    holds(jobs("sheets", status=2)[1], "JOBS")


def stored_sheets():
    """In the stored runs: each SH and SQ has the answer that its sheet's highest take gives, 512 sheets at most; every
    outcome is there, and poses that are not finite."""
    seen = collections.Counter()
    for path in sorted((ROOT / "tests" / "runs").glob("*.in")):
        job, answers, kept = path.read_bytes(), path.with_suffix(".out").read_bytes(), {}
        for (at, record), (answer_at, answer) in zip(walk(job, JOB), walk(answers, ANSWER)):
            if record.mark not in ("SH", "SQ"):
                continue
            sheet, rest = job[at + 2:at + 4], job[at + 4:at + 74]
            before = kept.get(sheet)
            order = before and [int.from_bytes(take[:2], "little") for take in (before, rest)]
            if record.mark == "SQ":
                expected, case = (b"SQ" + before[:2], "asked") if before else (b"NO\x0c", "never kept")
            elif before is None:
                expected, case = (sh_answer(1, 0), "new") if len(kept) < MOST else (b"NO\x0b", "a 513th")
            elif order[0] == order[1]:
                expected, case = b"NO\x0a", "the same"
            else:
                later = order[1] > order[0]
                expected, case = sh_answer(2 if later else 3, order[0]), "replaces" if later else "older"
            seen[case] += 1
            seen["older where 512 are kept"] += case == "older" and len(kept) == MOST
            if case in ("new", "replaces"):
                kept[sheet] = rest
            same(answers[answer_at:answer_at + len(expected)], expected, f"{path.name}: the record at byte {at}")
            if case == "asked":
                frames, numbers = before[66:70], struct.unpack("<8Q", before[2:66])
                words = [0x7FF8000000000000 if x << 1 > 0xFFE << 52 and x & (1 << 63) - 1 > 0x7FF << 52 else x
                         for x in numbers]
                same(answers[answer_at + 4:answer_at + 72], struct.pack("<8Q", *words) + frames,
                     f"{path.name}: the pose at byte {at}")
                seen["asked, a NaN"] += words != list(numbers)
    for case in ("new", "replaces", "older", "the same", "a 513th", "asked", "never kept", "asked, a NaN",
                 "older where 512 are kept"):
        assert seen[case] >= 3, f"{seen[case]} stored records with {case}; expected 3 or more"


@with_program
def fresh_with_each_run():
    """A run keeps nothing of the one before, and the running join is not touched."""
    program(sh(5, 9) + sq(5))
    same(program(sq(5) + sh(5, 1))[:8], b"NO\x0c" + sh_answer(1, 0), "the second job")
    ch = b"CH" + struct.pack("<8d2Hd", *POSE, 4, 9, 1)
    same(program(sh(5, 9) + ch + sq(4) + sh(4, 1, POSE, (9, 4)) + ch)[5 + 70:][:3 + 5 + 3],
         b"NO\x0c" + sh_answer(1, 0) + b"NO\x09", "beside CH")


TESTS = [records_in_their_places, bad_lines, as_text, compared, kept_takes, room_for_512, other_answers, stored_sheets,
         fresh_with_each_run]
