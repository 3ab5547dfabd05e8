"""`jobs arms`, its picture, and AR's bytes in the stored runs."""
import collections
import math
import struct
import xml.etree.ElementTree as tree

from .common import ROOT, WORK, answers, end, ended, file, holds, jobs, records, same
from jobs_lib import arms
from jobs_lib.floats import DOUBLE
from jobs_lib.layout import ANSWER, END, JOB
from jobs_lib.records import walk

VALUES = (1.5, 0.625, 0.75, 0.875, 0.25, -0.75, 0.5, -0.5, 4.0, 0.125)

# The limits of document 01, once more and apart from the tool: where each arm ends, in sigma sigma + z.
ENDS = {1: 0x3F0C70E59CFC9F1F, 2: 0x3FA59742AA36710D, 3: 0x3FD0E8139C96FC79, 4: 0x3FFFB1FFBC2A9C8C}
SERIES_END = 0x3FE2A77501626657


def bytes_of(sigma, z):
    """AR's two bytes for one sign, by the order of bit patterns where the sums are not NaN."""
    def below(x, limit):
        return x == x and DOUBLE.to_bits(x) < limit

    square = sigma * sigma
    arm = min([arm for arm, limit in ENDS.items() if below(square + z, limit)], default=5)
    return bytes([arm, arm == 5 and below(square, SERIES_END)])


def job_of(points):
    return b"".join(b"AR" + struct.pack("<12d", sigma, z, *VALUES) for sigma, z in points)


def answers_of(points):
    """Answers with the right bytes and any numbers; z below zero is refused."""
    parts = [b"NO\1" if z < 0 else b"AR" + bytes_of(sigma, z) + bytes_of(-sigma, z) + bytes(160)
             for sigma, z in points]
    return b"".join(parts) + end(len(parts), parts.count(b"NO\1"))


def run(points, *options, status=0):
    """Table and messages of `jobs arms` on these points."""
    job, answers_file = file("job", job_of(points)), file("answers", answers_of(points))
    return jobs("arms", *options, job, answers_file, status=status)[0].decode()


def stored_arms():
    """The Rust's stored answers: each AR record has the bytes that the limits give, for both signs."""
    seen = collections.Counter()
    for path in sorted((ROOT / "tests" / "runs").glob("*.in")):
        job, answer_bytes = path.read_bytes(), path.with_suffix(".out").read_bytes()
        for (at, record), (answer_at, answer) in zip(walk(job, JOB), walk(answer_bytes, ANSWER)):
            if record.mark != "AR":
                continue
            sigma, z = struct.unpack_from("<2d", job, at + 2)
            if z < 0:
                same(answer_bytes[answer_at:answer_at + 3], b"NO\1", f"{path.name}: z below zero")
                seen["refused"] += 1
                continue
            found, expected = answer_bytes[answer_at:answer_at + 6], b"AR" + bytes_of(sigma, z) + bytes_of(-sigma, z)
            same(found, expected, f"{path.name}: sigma {sigma!r}, z {z!r}")
            seen[tuple(found[2:4])] += 1
            odd = [sigma != sigma, z != z, math.isinf(sigma), math.isfinite(sigma) and math.isinf(sigma * sigma)]
            seen.update(name for name, here in zip(("sigma NaN", "z NaN", "sigma inf", "overflow"), odd) if here)
    for case in [*arms.RULES, "refused", "sigma NaN", "z NaN", "sigma inf", "overflow"]:
        assert seen[case] >= 5, f"{seen[case]} stored AR records with {case}; expected 5 or more"


def stored_numbers():
    """In tests/runs/ar_beside_co each AR record stands before CO with the same numbers, and answers the same twenty."""
    path = ROOT / "tests" / "runs" / "ar_beside_co.in"
    job, answer_bytes = path.read_bytes(), path.with_suffix(".out").read_bytes()
    requests, found = list(walk(job, JOB)), list(walk(answer_bytes, ANSWER))
    same(len(found), len(requests), "answers")
    for (one, _), (other, _), (at, arm), (co_at, co) in zip(requests[::2], requests[1::2], found[::2], found[1::2]):
        same((arm.mark, co.mark, job[one + 2:one + 98]), ("AR", "CO", job[other + 2:other + 98]), "a pair")
        same(answer_bytes[at + 6:at + 166], answer_bytes[co_at + 2:co_at + 162], f"the numbers at byte {at}")


def neighbours():
    """The tool's limits, on each limit and beside it."""
    def near(bits):
        return [DOUBLE.from_bits(bits + n) for n in (-1, 0, 1)]

    for arm, bits in ENDS.items():
        same([arms.arm_by_limits(0.0, z)[0] for z in near(bits)], [arm, arm + 1, arm + 1], f"the end of {arm}")
    root = DOUBLE.to_bits(math.sqrt(DOUBLE.from_bits(SERIES_END)))
    for sigma in [s for bits in range(root - 2, root + 3) for s in near(bits)]:
        for z in (0.0, 1.25, 2.0, math.inf, math.nan):
            same(bytes(arms.arm_by_limits(sigma, z)), bytes_of(sigma, z), f"sigma {sigma!r}, z {z!r}")
    same([arms.arm_by_limits(s, z) for s, z in ((0.0, math.nan), (math.nan, 0.0), (1e200, 0.0), (0.0, -0.0))],
         [(5, 1), (5, 0), (5, 0), (1, 0)], "NaN, overflow, zero")


POINTS = [(0.0, 0.0), (0.0, 1e-3), (0.1, 1e-3), (-0.5, 0.0), (0.3, 1.0), (0.5, 3.0), (0.0, 2.0), (2.0, 0.0),
          (0.0, -1.0)]


def counted():
    same(run(POINTS), """\
arm  rule                           records
  1  6 terms                              1
  2  11 terms                             2
  3  14 terms                             1
  4  19 terms                             1
  5  closed                               3
       of these v0, w0 by series          2
     answered                             8
     refused                              1
""", "the table")
    job, answer_bytes = (records(table, 7, 8) for table in (JOB, ANSWER))
    text = jobs("arms", file("job", job), file("answers", ended(answer_bytes)), status=1)[0].decode()
    holds(text, "7 records of other marks\n", "record 8  AR  told ")


def wrong_bytes():
    """A record whose bytes are not those of the limits is named, and the exit status is 1."""
    good = answers_of(POINTS)
    at = 166 * 5 + 2  # the bytes of (0.5, 3)
    for flags, message in [((4, 0, 4, 0), "told 19 terms;"), ((5, 0, 5, 0), "told closed;"),
                       ((5, 1, 5, 0), "told closed; v0, w0 by series, at -sigma closed;"),
                       ((9, 1, 9, 1), "told arm 9;")]:
        bad = good[:at] + bytes(flags) + good[at + 4:]
        text = jobs("arms", file("job", job_of(POINTS)), file("answers", bad), status=1)[0].decode()
        holds(text, f"record 6  AR  {message}", "the limits give closed; v0, w0 by series\n",
              "     answered                             8\n")
    many = b"".join(b"AR" + bytes((3, 0, 3, 0)) + bytes(160) for _ in range(50)) + end(50)
    text = jobs("arms", file("job", job_of([(2.0, 0.0)] * 50)), file("answers", many), status=1)[0].decode()
    same((text.count("the limits give closed\n"), text.count("30 more records")), (20, 1), "messages")


def wrong_files():
    """Files that are no job and its answer are named."""
    job, answers_file = file("job", job_of(POINTS)), file("answers", answers_of(POINTS))
    holds(jobs("arms", answers_file, job, status=2)[1], f"{answers_file} is not a job file",
          "expected JOBS, then ANSWERS")
    holds(jobs("arms", job, job, status=2)[1], f"{job} is not an answer file")
    holds(jobs("arms", job, file("other", answers()), status=2)[1], "record 1 is AR in JOBS and EX in ANSWERS")
    holds(jobs("arms", job, file("cut", answers_of(POINTS)[:-END.size]), status=1)[0].decode(),
          "ZZ and its counts are missing")
    holds(jobs("arms", job, file("few", answers_of(POINTS[:2])), status=1)[0].decode(),
          "JOBS has 9 records to be answered, ANSWERS has 2")
    cut = answers_of(POINTS)[:-END.size] + b"NO\7" + end(10, 2)
    jobs("arms", file("damaged", job_of(POINTS) + b"AR123"), file("answers7", cut))
    holds(jobs("arms", "-", "-", status=2)[1], "both standard input")
    holds(jobs("arms", "--svg", job, job, answers_file, status=2)[1], "would overwrite what is read")
    same(job.read_bytes(), job_of(POINTS), "the job file afterwards")
    holds(jobs("arms", "--svg", WORK.name + "/none/arms.svg", job, answers_file, status=2)[1], "cannot write",
          "No such file")


def drawn(points):
    """The picture of these points, as a tree."""
    path = file("arms.svg", b"")
    run(points, "--svg", path)
    return tree.fromstring(path.read_text())


def all_of(picture, name):
    return picture.iter("{http://www.w3.org/2000/svg}" + name)


def marks_of(picture):
    """Rule, place and title of each record's mark."""
    group = next(g for g in all_of(picture, "g") if g.get("id") == "records")
    return [(arms.RULES[int(use.get("href")[-1])], float(use.get("x")), float(use.get("y")), use[0].text)
            for use in group]


def picture_of_each_rule():
    """A mark for each answered record in its rule's shape, its numbers in a title; legend and counts; shapes differ."""
    picture = drawn(POINTS)
    same([rule for rule, *_ in marks_of(picture)], [tuple(bytes_of(*point)) for point in POINTS if point[1] >= 0],
         "the rules")
    same(marks_of(picture)[5][3], "record 6: σ² = 0.25, z = 3.0", "a title")
    text = "\n".join(element.text for element in all_of(picture, "text"))
    holds(text, "Arms of 8 AR records", "closed; v0, w0 by series\n2\n", "closed\n1\n", "refused, not drawn\n1\n",
          *(repr(DOUBLE.from_bits(bits)) for bits in (*ENDS.values(), SERIES_END)))
    shapes = [g[0].get("d") or g[0].tag for g in all_of(picture, "g") if g.get("id", "").startswith("mark")]
    same(len(set(shapes)), len(arms.RULES), "different shapes")


def picture_against_limits():
    """Where sigma is zero the marks of an arm lie between its limits' lines; where z is zero likewise; the dashed line
    parts the closed."""
    sizes = [10.0 ** (n / 4) for n in range(-40, 20)]
    points = [(0.0, z) for z in sizes] + [(math.sqrt(square), 0.0)
                                          for square in sizes] + [(s, 5.0) for s in (0.1, 0.7, 0.8, 3.0)]
    picture = drawn(points)
    curves = [path.get("d")[1:].split("L") for path in all_of(picture, "path") if path.get("class") == "limit"]
    lefts, feet = ([float(curve[end].split(",")[axis]) for curve in curves] for end, axis in ((0, 1), (-1, 0)))
    assert lefts == sorted(lefts, reverse=True) and feet == sorted(feet), f"the lines: {lefts}, {feet}"
    marks = marks_of(picture)
    zero = min(x for _, x, _, _ in marks), max(y for _, _, y, _ in marks)
    dashed = next(float(one.get("x1")) for one in all_of(picture, "line") if one.get("class") == "dashed")
    for (arm, series), x, y, title in marks:
        if x == zero[0]:
            same(arm, 1 + sum(y < left for left in lefts), title)
        elif y == zero[1]:
            same(arm, 1 + sum(x > foot for foot in feet), title)
        else:
            same(series, int(x < dashed), title)
    assert len(marks) > 60, f"{len(marks)} marks"


def boxes(picture):
    """About where each text stands: left, upper, right, lower."""
    for element in all_of(picture, "text"):
        size = 17 if element.get("class") == "title" else 13
        width = 0.6 * size * len(element.text)
        x, y = float(element.get("x")), float(element.get("y"))
        left = x - {"middle": width / 2, "end": width}.get(element.get("class"), 0)
        yield left, y - 0.75 * size, left + width, y, element.text


def picture_can_be_read():
    """No text leaves the picture or lies on another: with ordinary, extreme and no numbers. Every number has its
    place."""
    extreme = [(s, z) for s in (0.0, 5e-324, 1e-150, 1.0, 1e100, 1e200, math.inf, math.nan)
               for z in (0.0, 5e-324, 1.0, 1e300, math.inf, math.nan)]
    for points in (POINTS, extreme, [], extreme[:1], [(1e100, 1e-300)]):
        picture = drawn(points)
        width, height = float(picture.get("width")), float(picture.get("height"))
        texts = list(boxes(picture))
        for one in texts:
            assert 0 <= one[0] and one[2] <= width and 0 <= one[1] and one[3] <= height, f"outside: {one}"
            for other in texts:
                apart = one[2] <= other[0] or other[2] <= one[0] or one[3] <= other[1] or other[3] <= one[1]
                assert one is other or apart, f"{one} lies on {other}"
        assert all(0 < x < width and 0 < y < height for _, x, y, _ in marks_of(picture)), "a mark outside"
    # σ² is zero, tiny, 1, huge, infinite (at 1e200 too) or NaN, and so is z
    same(len({(x, y) for _, x, y, _ in marks_of(drawn(extreme))}), 6 * 6, "places of extreme numbers")


def many_records():
    """Of very many marks in one place one is drawn; the counts are of all."""
    picture = drawn([(0.0, 1e-3)] * 500 + [(0.0, 1e-3 * (1 + n / 1e6)) for n in range(500)])
    same(len(marks_of(picture)), 1, "marks")
    holds("\n".join(element.text for element in all_of(picture, "text")), "11 terms\n1,000\n", "1 marks are drawn")


TESTS = [stored_arms, stored_numbers, neighbours, counted, wrong_bytes, wrong_files, picture_of_each_rule,
         picture_against_limits,
         picture_can_be_read, many_records]
