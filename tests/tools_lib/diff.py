"""`jobs diff`."""
import struct

from .common import (EX_SIZE, MINUS, MINUS32, NAN, NAN32, ONE, ONE32, WORK, answers, answers_with, end, ended, file,
                     holds, jobs,
                     records, same)
from jobs_lib.layout import ANSWER, END, JOB


def diff(old, new, status, *options):
    text, messages = jobs("diff", *options, file("old", old), file("new", new), status=status)
    same(messages, "", "messages")
    return text.decode()


def equal_files():
    expected = ("not usable in both: 6 answers, records 2 to 5, 7 to 8\n"
                "equal: 9 records, ZZ 9 begun, 2 answered, 1 refused, 6 unusable\n")
    same(diff(answers(), answers(), 0), expected, "diff of a file with itself")
    same(diff(end(0), end(0), 0), "equal: 0 records, ZZ 0 begun, 0 answered, 0 refused, 0 unusable\n", "diff")


def unusable_answers():
    """Which answers hold a NaN or an infinity is said of each file, and how many are left out of a long list."""
    def points(*values):
        return ended(b"".join(b"AC" + struct.pack("<3d", 1.0, x, 2.0) for x in values))

    inf, nan = float("inf"), float("nan")
    text = diff(points(1.0, nan, 3.0, 4.0), points(1.0, nan, -inf, 4.0), 1)
    holds(text, "not usable in OLD ", ": 1 answer, record 2\n", "not usable in NEW ", ": 2 answers, records 2 to 3\n",
          "end  ZZ  answered  3  ->  2  -1\n", "end  ZZ  unusable  1  ->  2  +1\n")
    text = diff(points(1.0, 2.0), points(1.0, inf), 1)
    assert "not usable in OLD" not in text, text
    holds(text, ": 1 answer, record 2\n", "ZZ 2 begun, 1 answered, 0 refused, 1 unusable\n")
    many = points(*([nan, 1.0] * 20))
    holds(diff(many, many, 0), "not usable in both: 20 answers, records 1, 3, 5, 7, 9, 11, 13, 15, 17, 19, 21, 23 "
                               "and 8 more (jobs show --unusable lists them)\n")
    largest = points(1.7976931348623157e308, -1.7976931348623157e308, 5e-324)
    assert "not usable" not in diff(largest, largest, 0), "the largest finite numbers are usable"


def one_changed_bit():
    """It is found wherever it stands, with its record, field, values and distance."""
    for mark, number, field in [("EX", 1, "pose.q.w"), ("CO", 2, "coeffs(-).dv2"),
                                ("PA", 3, "left.b[1][2]"), ("PA", 3, "right_inv.e"),
                                ("AC", 4, "point.z"), ("JI", 7, "inverse.f[2]"),
                                ("AR", 8, "coeffs(+).v0"), ("AR", 8, "coeffs(-).chi_delta")]:
        text = diff(answers_with(mark, field, ONE), answers_with(mark, field, ONE + 1), 1)
        holds(text, f"record {number}  {mark}  {field}  1.0  ->  1.0000000000000002  1 ulp\n",
              f"different: 1 record ({mark} 1), 1 number\n",
              f"largest distance: 1 ulp, record {number} {mark} {field}\n")


def singles():
    """Singles are compared by their own units in the last place, apart from doubles; marks of the two widths differ."""
    for mark, number, field in [("ex", 1, "pose.q.w"), ("co", 2, "coeffs(-).dv2"), ("pa", 3, "right_inv.e"),
                                ("ac", 4, "point.z"), ("ji", 7, "inverse.f[2]")]:
        text = diff(answers_with(mark, field, ONE32), answers_with(mark, field, ONE32 + 1), 1)
        holds(text, f"record {number}  {mark}  {field}  1.0  ->  1.0000001  1 ulp\n",
              f"different: 1 record ({mark} 1), 1 number\n",
              f"largest distance of singles: 1 ulp, record {number} {mark} {field}\n")
    assert "largest distance:" not in text, text

    def between(old, new, status=1, mark="in", field="inverse.t.x"):
        return diff(answers_with(mark, field, old), answers_with(mark, field, new), status)

    holds(between(0, MINUS32), "inverse.t.x  0.0  ->  -0.0  sign of zero\n")
    holds(between(NAN32, ONE32), "nan  ->  1.0  NaN against a number\n")
    holds(between(NAN32, 0xFF800001, 0), "the bits of a NaN: 1 record", "equal: 8 records")
    holds(between(0, ONE32, 1, "co", "coeffs(+).scaled"), "scaled  0.0  ->  1.0  another flag\n")
    holds(between(3, 65283, 1, "mu", "product.frames.to"),
          "record 5  mu  product.frames.to  3  ->  65283  another frame\n")
    both = [ended(b"AC" + struct.pack("<3d", *point) + b"ac" + struct.pack("<3f", *point))
            for point in ((1, 2, 3), (1, 2, 3 + 2 ** -20))]
    holds(diff(*both, 1), "record 1  AC  point.z  3.0  ->  3.0000009536743164  2,147,483,648 ulp\n",
          "record 2  ac  point.z  3.0  ->  3.000001  4 ulp\n",
          "largest distance: 2,147,483,648 ulp, record 1 AC point.z\n",
          "largest distance of singles: 4 ulp, record 2 ac point.z\n")
    other = [ended(mark + bytes(size)) for mark, size in ((b"AC", 24), (b"ac", 12))]
    holds(diff(*other, 1), "record 1  AC  ->  ac\n")


def zeros_nans_flags():
    def between(old, new, status=1, mark="IN", field="inverse.t.x"):
        return diff(answers_with(mark, field, old), answers_with(mark, field, new), status)

    holds(between(0, MINUS), "inverse.t.x  0.0  ->  -0.0  sign of zero\n")
    holds(between(NAN, ONE), "nan  ->  1.0  NaN against a number\n")
    holds(between(NAN, NAN | 1, 0), "the bits of a NaN: 1 record", "equal: 9 records")
    holds(between(0, ONE, 1, "CO", "coeffs(+).scaled"), "scaled  0.0  ->  1.0  another flag\n")
    holds(between(ONE, 0, 1, "AR", "coeffs(-).scaled"), "scaled  1.0  ->  0.0  another flag\n")


def arms():
    """AR's bytes are compared by their meaning, and do not count for the largest distance."""
    def between(field, old, new):
        return diff(answers_with("AR", field, old), answers_with("AR", field, new), 1)

    holds(between("arm(+)", 4, 5), "record 8  AR  arm(+)  4 (19 terms)  ->  5 (closed)  another arm\n",
          "different: 1 record (AR 1), 1 number\n")
    text = between("series(-)", 1, 0)
    holds(text, "record 8  AR  series(-)  1 (v0, w0 by series)  ->  0  another flag\n")
    assert "largest distance" not in text, text
    holds(between("arm(-)", 1, 9), "1 (6 terms)  ->  9 (a number that no arm has)  another arm\n")


def frames():
    """Frames are compared by number, are named, and are no part of the largest distance."""
    def between(mark, field, old, new):
        return diff(answers_with(mark, field, old), answers_with(mark, field, new), 1)

    for mark, number, name in [("EX", 1, "pose"), ("MU", 5, "product"), ("IN", 6, "inverse")]:
        for field in (f"{name}.frames.from", f"{name}.frames.to"):
            text = between(mark, field, 3, 65283)
            holds(text, f"record {number}  {mark}  {field}  3  ->  65283  another frame\n",
                  f"different: 1 record ({mark} 1), 1 number\n")
            assert "largest distance" not in text, text
    text = diff(answers_with("MU", "product.frames.from", 7),
                ended(answers()[:-END.size].replace(b"NO\1", b"NO\x09"), 1), 1)
    holds(text,
          "1 (squared angle z below zero)  ->  9 (frames do not meet: the left pose's from is not the right pose's to) "
          " another refusal\n")


def older_files():
    """Answers of the older format, in which poses have no frames, are named as such, on either side."""
    old, whole = file("before", b"MU" + bytes(64) + end(1)), file("now", answers())
    for words, name in (((old, whole), "OLD"), ((whole, old), "NEW")):
        out, messages = jobs("diff", *words, status=2)
        same((out, messages[:messages.index("?") + 1]), (b"", f"jobs: {name} {old}: answers of the older format?"),
             "the message")


def refusals():
    refused = ended(b"NO\2" + answers()[EX_SIZE:-END.size], 2)
    text = diff(answers(), refused, 1)
    holds(text, "record 1  EX  ->  NO 2 (e is +0 or -0", "end  ZZ  answered  2  ->  1  -1\n")
    other = ended(answers()[:-END.size - 1] + b"\2", 1)
    holds(diff(answers(), other, 1),
          "record 9  NO  refusal  1 (squared angle z below zero)  ->  2 (e is")


def missing_and_short_ends():
    """They are said first, as is a cut record; equal bytes do not hide them."""
    whole = answers()
    for part, message in [(whole[:-END.size], "ZZ and its counts are missing"),
                          (whole[:-1], "ZZ is short, 97"), (whole[:-4], "ZZ is short, 94"),
                          (whole[:100], "the file ends inside a record: CO takes 162 bytes, 30")]:
        for old, new, name in [(whole, part, "NEW"), (part, whole, "OLD"), (part, part, "OLD")]:
            holds(diff(old, new, 1).splitlines()[0], name, message)
    holds(diff(whole, whole[:100], 1), "records 2 to 9  in OLD", "1 record, no ZZ")


def unreadable_files():
    whole = answers()
    text = diff(whole, whole[:EX_SIZE] + b"QQ" + whole[EX_SIZE:], 2)
    holds(text.splitlines()[0], "NEW", "byte 70: unknown mark 51 51 ('QQ')")
    holds(text, "records 2 to 9  in OLD", "not compared")
    old, job = file("old", whole), file("job", records(JOB, 1, 8))
    holds(jobs("diff", old, job, status=2)[1], f"NEW {job} is not an answer file", "expected")
    holds(jobs("diff", old, WORK.name + "/none", status=2)[1], "cannot read", "No such file")
    holds(jobs("diff", old, status=2)[1], "required: NEW")
    holds(jobs("diff", "-", "-", status=2)[1], "both standard input")
    holds(jobs("diff", "--limit", "x", old, old, status=2)[1], "expected a whole number")


def limited_output():
    old, new = (ended(records(ANSWER, seed, 160)) for seed in (3, 5))
    text = diff(old, new, 1, "--limit", "3")
    same(sum(line.startswith("record ") for line in text.splitlines()), 3, "printed differences")
    every = sum(line.startswith(("record ", "end ")) for line in diff(old, new, 1).splitlines())
    holds(text, f"{every - 3:,} more differences not printed", "161 records (EX 20, CO 20", "AR 20, ZZ 1)")


TESTS = [equal_files, unusable_answers, one_changed_bit, singles, zeros_nans_flags, arms, frames, older_files, refusals,
         missing_and_short_ends,
         unreadable_files, limited_output]
