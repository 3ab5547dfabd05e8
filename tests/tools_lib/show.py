"""`jobs show`."""
import collections
import hashlib
import random
import struct

from .common import (EX_SIZE, ROOT, SINGLES, answers, end, ended, file, holds, jobs, not_finite, places_not_finite,
                     records, same, with_bulk)
from jobs_lib import bulk
from jobs_lib.floats import DOUBLE
from jobs_lib.layout import ANSWER, DOUBLES, END, JOB, OLDER_ANSWER, OLDER_JOB
from jobs_lib.records import scan, walk
from jobs_lib.show import one_line, texts


def layout_of_the_scope():
    """Lengths of the records, and where some numbers stand, apart from the tool's own table."""
    sizes = {"EX": (140, 68), "CO": (96, 160), "PA": (280, 992), "AC": (100, 24), "MU": (144, 68),
             "IN": (76, 68), "JI": (248, 248), "AR": (96, 164), "ex": (72, 36), "co": (48, 80),
             "pa": (140, 496), "ac": (52, 12), "mu": (76, 36), "in": (40, 36), "ji": (124, 124),
             "CH": (76, 68), "RN": (2, 2), "SH": (72, 3), "SQ": (2, 70)}
    same([layout.mark for layout in JOB.values()], list(sizes), "the marks")
    for layout in JOB.values():
        out = ANSWER[layout.mark.encode()]
        same((layout.size - 2, out.size - 2), sizes[layout.mark], f"bytes of {layout.mark}")
    rows = "EX CO PA AC MU IN JI ex co pa ac mu in ji AR CH RN SH SQ unknown".split()
    same((END.size, END.fields), (98, ["begun", "answered", "refused", "unusable", *rows]), "ZZ")
    for table, mark, field, number in [
            (JOB, b"EX", "sigma", 6), (JOB, b"EX", "values.cos_half", 9), (JOB, b"CO", "values.M0", 9),
            (JOB, b"PA", "J[1][0]", 18), (JOB, b"PA", "Jinv[0][2]", 32), (JOB, b"AC", "up", 10),
            (JOB, b"MU", "right.t.x", 14), (JOB, b"JI", "block.e", 30), (JOB, b"EX", "frames.from", 17),
            (JOB, b"AC", "pose.frames.to", 9), (JOB, b"MU", "left.frames.from", 8), (JOB, b"MU", "right.frames.to", 19),
            (JOB, b"MU", "up", 20), (JOB, b"IN", "pose.frames.from", 8), (JOB, b"IN", "down", 10),
            (ANSWER, b"EX", "pose.frames.from", 8), (ANSWER, b"MU", "product.frames.to", 9),
            (ANSWER, b"IN", "inverse.frames.from", 8),
            (ANSWER, b"CO", "coeffs(+).scaled", 9), (ANSWER, b"CO", "coeffs(-).dv2", 17),
            (ANSWER, b"PA", "left.b[1][2]", 16), (ANSWER, b"PA", "right_inv.f[0]", 120),
            (JOB, b"AR", "z", 1), (JOB, b"AR", "values.down", 11), (ANSWER, b"AR", "arm(+)", 0),
            (ANSWER, b"AR", "series(+)", 1), (ANSWER, b"AR", "arm(-)", 2),
            (ANSWER, b"AR", "coeffs(+).v0", 4), (ANSWER, b"AR", "coeffs(-).scaled", 23),
            (JOB, b"CH", "pose.sigma", 7), (JOB, b"CH", "pose.frames.from", 8), (JOB, b"CH", "up", 10),
            (ANSWER, b"CH", "running.frames.to", 9), (JOB, b"RN", "n", 0), (ANSWER, b"RN", "n", 0),
            (JOB, b"SH", "sheet", 0), (JOB, b"SH", "take", 1), (JOB, b"SH", "pose.sigma", 9),
            (JOB, b"SH", "pose.frames.to", 11), (JOB, b"SQ", "sheet", 0),
            (ANSWER, b"SH", "outcome", 0), (ANSWER, b"SH", "before", 1), (ANSWER, b"SQ", "take", 0),
            (ANSWER, b"SQ", "pose.q.w", 1), (ANSWER, b"SQ", "pose.frames.from", 9)]:
        same(table[mark].fields[number], field, f"number {number} of {mark.decode()}")
    for table, mark, field, at in [(JOB, b"ex", "frames", 70), (JOB, b"ac", "pose.frames", 34), (JOB, b"ac", "up", 38),
                                   (JOB, b"mu", "right.q", 38),
                                   (JOB, b"mu", "right.frames", 70), (JOB, b"mu", "up", 74), (JOB, b"in", "down", 38),
                                   (JOB, b"ji", "block.e", 122),
                                   (ANSWER, b"co", "coeffs(-)", 42), (ANSWER, b"pa", "right_inv.e", 494),
                                   (ANSWER, b"in", "inverse.frames", 34)]:
        same({group.name: at for at, group in table[mark].offsets()}[field], at,
             f"the byte of {field} in {mark.decode()}")


def back_by_make():
    """`make` turns the lines of `show` into the same bytes, for every mark and odd numbers."""
    for marks in (DOUBLES, SINGLES, list(JOB)):
        data = records(JOB, 2, 160, marks)
        text, messages = jobs("show", data=data)
        same((text.count(b"\n"), messages), (160, ""), "lines and messages")
        same(jobs("make", data=text)[0], data, "the bytes made again")


def stored_runs():
    """The stored job files read back, but for what follows an unknown mark; the answers are whole."""
    for path in sorted((ROOT / "tests" / "runs").glob("*.in")):
        data, answer = path.read_bytes(), path.with_suffix(".out")
        last = answer.read_bytes()[:-END.size][-3:]  # 6 and 7 answer what is damaged
        text = jobs("show", "--in", path, status=1 if last in (b"NO\6", b"NO\7") else 0)[0]
        made = jobs("make", data=text)[0]
        same(made, data[:len(made)], f"{path.name}, shown and made again")
        assert len(made) == len(data) or b" more\n" in text, f"{path.name} was not shown whole"
        holds(jobs("show", answer)[0].decode(), "ZZ begun ")


def answers_as_text():
    text = jobs("show", data=answers())[0].decode()
    same(len(text.splitlines()), 10, "lines")
    holds(text, "EX pose.q ", "; right_inv.e ", "NO refusal 1  # squared angle z below zero\n",
          "ZZ begun 9; answered 2; refused 1; unusable 6; EX 1; CO 2; PA 1; AC 1; MU 1; IN 1; JI 1; AR 1\n")
    odd = b"AC" + struct.pack("<3d", -0.0, float("nan"), float("-inf")) + end(1, 0, 1)
    same(jobs("show", data=odd)[0],
         b"AC point -0.0 nan -inf\nZZ begun 1; answered 0; refused 0; unusable 1; AC 1\n", "odd numbers")


def unusable_answers():
    """--unusable: the records' numbers, what in them is not finite, and how many they are; of every field."""
    inf, nan = float("inf"), float("nan")
    data = b"".join(b"AC" + struct.pack("<3d", *point) for point in
                    [(1, 2, 3), (inf, 2, 3), (1, 2, nan), (1.7976931348623157e308, 1.7976931348623157e308, 5e-324)])
    data = ended(data[:26] + b"NO\2" + data[26:] + b"JI" + struct.pack("<31d", *[-inf] * 31), 1)
    same(jobs("show", "--unusable", data=data)[0].decode(), """\
record 3  AC  point.x inf
record 4  AC  point.z nan
record 6  JI  inverse.a[0][0] -inf, inverse.a[1][0] -inf, inverse.a[2][0] -inf, inverse.a[0][1] -inf, \
inverse.a[1][1] -inf, inverse.a[2][1] -inf and 25 more
not usable: 3 answers of 6 records
""", "the list")
    for layout in ANSWER.values():
        for place, code in enumerate(layout.codes):
            if code in "df":
                numbers = [nan if i == place else 0 for i in range(len(layout.fields))]
                data = layout.mark.encode() + layout.numbers.pack(*numbers)
                holds(jobs("show", "--unusable", data=data + end(1, 0, 1))[0].decode(),
                      f"record 1  {layout.mark}  {layout.fields[place]} nan\n")
                holds(jobs("show", data=data + end(1), status=1)[1],
                      "which are 1 begun, 0 answered, 0 refused, 1 unusable")
    same(jobs("show", "--unusable", data=end(0))[0], b"not usable: 0 answers of 0 records\n", "no records")
    holds(jobs("show", "--unusable", data=records(JOB, 1, 3), status=2)[1], "is a job file; expected answers")
    holds(jobs("show", "--unusable", "--hex", data=end(0), status=2)[1], "--unusable stands alone")


def stored_counts():
    """The stored answers' four counts: the last three add up to the first, the fourth is of those that are not finite;
    both ends of an answer are among them."""
    alone = collections.Counter()
    for path in sorted((ROOT / "tests" / "runs").glob("*.out")):
        data = path.read_bytes()
        begun, answered, refused, unusable = struct.unpack("<4I", data[-96:-80])
        same((data[-98:-96], answered + refused + unusable, unusable), (b"ZZ", begun, not_finite(data)), path.name)
        for at, layout in walk(data, ANSWER):
            bad = places_not_finite(data, at, layout)
            alone.update([(layout.mark, layout.fields[bad[0]])] if len(bad) == 1 else [])
    for place in [("AC", "point.x"), ("AC", "point.z"), ("MU", "product.q.w"), ("MU", "product.sigma"),
                  ("IN", "inverse.sigma"),
                  ("CO", "coeffs(+).chi_delta"), ("CO", "coeffs(-).chi_delta"), ("AR", "coeffs(-).chi_delta"),
                  ("JI", "inverse.f[2]"),
                  ("ac", "point.x"), ("ac", "point.z"), ("mu", "product.q.w"), ("mu", "product.sigma"),
                  ("in", "inverse.sigma"), ("co", "coeffs(-).chi_delta"),
                  ("CH", "running.sigma"), ("SQ", "pose.q.w"), ("SQ", "pose.sigma")]:
        assert alone[place], f"no stored answer in which {place} alone is not finite"
    same({mark for mark, _ in alone}, {layout.mark for layout in JOB.values() if layout.mark not in ("RN", "SH")},
         "marks with one number alone that is not finite")


def stored_nans():
    """In the stored answers of singles a NaN stands in every number of every answer but a flag and pa's e, which is 1;
    it is written 7fc00000."""
    found = collections.defaultdict(set)
    for path in (ROOT / "tests" / "runs").glob("f32_nan_*.out"):
        data = path.read_bytes()
        for at, layout in walk(data, ANSWER):
            for i, bits in enumerate(layout.bits.unpack_from(data, at + 2)):
                if layout.codes[i] == "f" and bits & 0x7FFFFFFF > 0x7F800000:
                    same(bits, 0x7FC00000, f"a NaN in {path.name}")
                    found[layout.mark].add(i)
    for layout in map(ANSWER.get, SINGLES):
        ones = {i for i, field in enumerate(layout.fields) if layout.mark == "pa" and field.endswith(".e")}
        numbers = {i for i, code in enumerate(layout.codes) if code == "f"} - layout.flags - ones
        same(found[layout.mark], numbers, f"the numbers of {layout.mark}'s answer that were a NaN")


def singles_as_text():
    """A single is shown by the shortest decimal that reads back, its NaN by 8 digits; bytes are its own 4."""
    numbers = struct.pack("<3f", 0.1, -0.0, 3.4028234663852886e38)
    data = b"ac" + numbers + b"ac" + struct.pack("<3I", 0x7FC00000, 0xFFC00001, 0xFF800000) + end(2, 0, 1)
    same(jobs("show", data=data)[0].decode(), "ac point 0.1 -0.0 3.4028235e+38\nac point nan nan:ffc00001 -inf\n"
                                              "ZZ begun 2; answered 1; refused 0; unusable 1; ac 2\n", "two points")
    holds(jobs("show", "--hex", data=data)[0].decode(), "       0  61 63                    ac\n",
          "       2  cd cc cc 3d              point.x = 0.1\n",
          "      20  01 00 c0 ff              point.y = nan:ffc00001\n")
    same(jobs("show", "--unusable", data=data)[0].decode(),
         "record 2  ac  point.x nan, point.y nan:ffc00001, point.z -inf\nnot usable: 1 answer of 2 records\n",
         "the list")
    mixed = records(JOB, 5, 2 * len(JOB), list(JOB))
    same([line.split()[0].encode() for line in jobs("show", data=mixed)[0].decode().splitlines()], [*JOB, *JOB],
         "marks of both widths")
    for mark in (b"Ac", b"aC", b"ar"):
        holds(jobs("show", "--in", data=mixed + mark + bytes(200), status=1)[1],
              f"unknown mark {mark.hex(' ')} ('{mark.decode()}')")
    holds(jobs("show", "--in", data=b"mu" + bytes(75), status=1)[1],
          "the file ends inside a record: mu takes 78 bytes, 77 are there")


def stored_records():
    """The stored answers up to ZZ are those whose digests tests/runs.sha256 has: whatever ZZ counts, the records
    stay."""
    lines = (ROOT / "tests" / "runs.sha256").read_text().splitlines()
    digests = {name: digest for digest, name in (line.split("  ") for line in lines)}
    found = {path.stem: path.read_bytes() for path in (ROOT / "tests" / "runs").glob("*.out")}
    same(sorted(digests), sorted(found), "the runs in tests/runs.sha256")
    for name, data in found.items():
        same(hashlib.sha256(data[:scan(data, ANSWER, "").end]).hexdigest(), digests[name],
             f"the digest of {name} up to ZZ")


def arms_as_text():
    """The line of an AR answer ends with the meaning of its bytes, for both signs if they differ."""
    for flags, meaning in [((1, 0, 1, 0), "6 terms"), ((2, 0, 2, 0), "11 terms"), ((3, 0, 3, 0), "14 terms"),
                       ((4, 0, 4, 0), "19 terms"), ((5, 0, 5, 0), "closed"),
                       ((5, 1, 5, 1), "closed; v0, w0 by series"),
                       ((4, 0, 5, 1), "at sigma: 19 terms; at -sigma: closed; v0, w0 by series"),
                       ((6, 0, 6, 0), "a number that no arm has")]:
        data = b"AR" + bytes(flags) + struct.pack("<20d", *range(20)) + end(1)
        line = jobs("show", data=data)[0].decode().splitlines()[0]
        begin = "AR arm(+) {}; series(+) {}; arm(-) {}; series(-) {}; coeffs(+) 0.0 1.0 ".format(*flags)
        same((line[:len(begin)], line.partition("  # ")[2]), (begin, meaning), f"the line of {flags}")
    data = b"AR" + bytes((5, 1, 4, 0)) + bytes(160) + end(1)
    holds(jobs("show", "--hex", "--record", "1", data=data)[0].decode(),
          "       2  05                       arm(+) = 5 (closed)\n"
          "       3  01                       series(+) = 1 (v0, w0 by series)\n"
          "       4  04                       arm(-) = 4 (19 terms)\n"
          "       5  00                       series(-) = 0\n"
          "       6  00 00 00 00 00 00 00 00  coeffs(+).v0 = 0.0\n")


def frames_as_text():
    """Frames stand behind their pose as whole numbers, and no frame is a NaN or an infinity."""
    numbers = (1, 0, 0, 0, 1, 2, 3, 0)
    data = b"MU" + struct.pack("<8d2H8d2Hd", *numbers, 3, 1, *numbers, 65535, 258, 1)
    text = "1.0 0.0 0.0 0.0; {0}.t 1.0 2.0 3.0; {0}.sigma 0.0; {0}.frames "
    same(jobs("show", "--in", data=data)[0].decode(),
         f"MU left.q {text.format('left')}3 1; right.q {text.format('right')}65535 258; up 1.0\n", "a product")
    holds(jobs("show", "--in", "--hex", data=data)[0].decode(),
          "      58  00 00 00 00 00 00 00 00  left.sigma = 0.0\n"
          "      66  03 00                    left.frames.from = 3\n"
          "      68  01 00                    left.frames.to = 1\n"
          "      70  00 00 00 00 00 00 f0 3f  right.q.w = 1.0\n",
          "     134  ff ff                    right.frames.from = 65535\n"
          "     136  02 01                    right.frames.to = 258\n"
          "     138  00 00 00 00 00 00 f0 3f  up = 1.0\n")
    data = b"".join(mark + struct.pack("<8d2H", *numbers, 0x7FF0, 0xFFFF)
                    for mark in (b"EX", b"MU", b"IN")) + b"NO\x09" + end(4, 1)
    shown = jobs("show", data=data)[0].decode()
    holds(shown, *(f"{name}.sigma 0.0; {name}.frames 32752 65535\n" for name in ("pose", "product", "inverse")),
          "NO refusal 9  # frames do not meet: the left pose's from is not the right pose's to\n",
          "answered 3; refused 1; unusable 0; EX 1; CO 1; MU 1; IN 1\n")


def older_files():
    """A job or answers of the older format, without frames, is named as such; a cut file and one without poses are
    not."""
    def show(data, *options):
        return jobs("show", *options, data=data, status=1)[1]

    for mark, about in [(b"EX", 138), (b"AC", 98), (b"MU", 138), (b"IN", 74)]:
        layout = OLDER_JOB[mark]
        same(layout.size, about, f"bytes of an older {mark.decode()}")
        record = mark + bytes(layout.size - 2)
        for data in (record, 3 * record, records(JOB, 1, 2)[142:] + record, b"CO" + bytes(96) + record):
            holds(show(data), "byte ",
                  "jobs: a job of the older format? Its poses have no frames; expected from and to", "frames 3 7")
        assert "older format" not in show(record[:-1]) + show(record
                                                              + b"Q") + show(2 * record[:-2]), f"a cut {mark.decode()}"
    whole = b"".join(layout.mark.encode() + bytes(layout.size - 2) for layout in OLDER_ANSWER.values()) + end(9, 1)
    for data in (whole, b"NO\1" + b"IN" + bytes(64) + end(2, 1), b"EX" + bytes(64) + end(1)):
        holds(show(data) + show(data, "--out"), "jobs: answers of the older format? Their poses have no frames")
    assert "older format" not in show(whole[:-END.size + 1]) + show(end(0)[:9], "--out"), "cut answers"
    job, answers_file = file("job", b"AR" + bytes(96)), file("answers", whole)
    holds(jobs("arms", job, answers_file, status=2)[1], f"jobs: {answers_file}: answers of the older format?")
    holds(jobs("arms", file("before", b"IN" + bytes(72)), answers_file, status=2)[1],
          "before: a job of the older format?")


def stored_frames():
    """The stored runs: frames by the rules of a product and an inverse, 9 exactly where they do not meet, 7 before 9,
    and the AC record of the scope."""
    seen = collections.Counter()
    for path in sorted((ROOT / "tests" / "runs").glob("*.in")):
        job, answer_bytes = path.read_bytes(), path.with_suffix(".out").read_bytes()
        for (at, record), (view_at, answer) in zip(walk(job, JOB), walk(answer_bytes, ANSWER)):
            if record.mark not in ("EX", "MU", "IN"):
                continue
            given = dict(zip(record.fields, record.numbers.unpack_from(job, at + 2)))
            begin, to = (given[name]
                         for name in {"EX": ("frames.from", "frames.to"), "MU": ("right.frames.from", "left.frames.to"),
                                                  "IN": ("pose.frames.to", "pose.frames.from")}[record.mark])
            expected = record.mark.encode()
            if record.mark == "MU" and given["left.frames.from"] != given["right.frames.to"]:
                apart = given["left.frames.from"] ^ given["right.frames.to"]
                seen["first byte" if apart < 256 else "second byte" if not apart & 255 else "both bytes"] += 1
                seen["wrong order"] += given["left.frames.to"] == given["right.frames.from"]
                expected = b"NO\x09"
            same(answer_bytes[view_at:view_at + len(expected)], expected, f"{path.name}: the record at byte {at}")
            if expected != b"NO\x09":
                same(struct.unpack_from("<2H", answer_bytes, view_at + 66), (begin, to),
                     f"{path.name}: frames of the record at byte {at}")
                seen[record.mark] += 1
    for case in ("EX", "MU", "IN", "first byte", "second byte", "both bytes", "wrong order"):
        assert seen[case] >= 3, f"{seen[case]} stored records with {case}; expected 3 or more"


def stored_scope_record():
    """The AC record that the scope prints: four zero bytes behind its pose, and the output that it had without them."""
    job, answer_bytes = ((ROOT / "tests" / "runs" / f"one_ac.{end}").read_bytes() for end in ("in", "out"))
    before = b"AC" + struct.pack("<12d", 1, 0, 0, 0, 1, 2, 3, 0, 1, 4, 5, 6)
    same(job, before[:66] + bytes(4) + before[66:], "one_ac.in")
    same(answer_bytes.hex(" ", -2), "4143 0000 0000 0000 1440 0000 0000 0000 1c40 0000 0000 0000 2240 "
                            "5a5a 0100 0000 0100 0000 0000 0000 0000 0000 " + 6 * "0000 " + "0100 0000 " + 31 * "0000 "
         + "0000", "one_ac.out")


def single_records():
    """--record and --hex: the records asked for, no ZZ, and their bytes."""
    text = jobs("show", "--hex", "--record", "9", data=answers())[0].decode()
    at = len(answers()) - END.size - 3
    same(text, f"{at:8}  4e 4f                    NO\n"
               f"{at + 2:8}  01                       refusal = 1 (squared angle z below zero)\n",
         "record 9")
    text = jobs("show", "--record", "4-5", data=answers())[0].decode()
    same([line[:2] for line in text.splitlines()], ["AC", "MU"], "records 4 and 5")
    holds(jobs("show", "--record", "10", data=answers(), status=2)[1], "no record 10", "it has 9")
    for word in ("0", "3-2", "x"):
        holds(jobs("show", "--record", word, status=2)[1], "expected 7 or 7-9, from 1")


def guesses():
    """A file is a job file or an answer file by what it holds; JI alone by its ZZ."""
    for mark, layout in JOB.items():
        data = mark + bytes(layout.size - 2)
        holds(jobs("show", data=data)[0].decode(), layout.groups[0].name)
        data = mark + bytes(ANSWER[mark].size - 2) + end(1)
        holds(jobs("show", data=data)[0].decode(), ANSWER[mark].groups[0].name, "ZZ begun 1")
        holds(jobs("show", data=data[:-1], status=1)[0].decode(), ANSWER[mark].groups[0].name)
    for length in (71, 100, 200, 300, 1000, 1500):
        holds(jobs("show", data=answers()[:length], status=1)[0].decode(), "EX pose.q")
    holds(jobs("show", data=answers()[:EX_SIZE] + b"QQ" + end(1), status=1)[0].decode(), "EX pose.q")
    same(jobs("show", data=end(0))[0], b"ZZ begun 0; answered 0; refused 0; unusable 0\n", "no records")
    same(jobs("show", data=b"")[0], b"", "an empty job file")


def damaged_jobs():
    """Where a job file is damaged the byte is named, and its bytes are shown all the same."""
    good = records(JOB, 4, 2)
    for bad, message in [
            (b"QQ123", "byte 240: unknown mark 51 51 ('QQ')"),
            (b"A", "byte 240: the file ends inside a mark, after 41"),
            (b"AC" + bytes(9),
             "byte 240: the file ends inside a record: AC takes 102 bytes, 11 are there")]:
        text, messages = jobs("show", data=good + bad, status=1)
        holds(messages, message, "--out reads it")
        same(jobs("make", data=text)[0], good + bad, "the bytes made again")
    holds(jobs("show", data=b"# " * 99, status=1)[0].decode(), "bytes 23 20 ", "# and 166 more\n")


def damaged_answers():
    whole = answers()
    last = len(whole) - END.size
    for data, message in [
            (whole[:last], f"byte {last}: ZZ and its counts are missing"),
            (whole[:-1], f"byte {last}: ZZ is short, 97 of 98 bytes"),
            (whole[:-80], f"byte {last}: ZZ is short, 18 of 98 bytes: the answer is not whole; it has its first four "
                          f"counts alone"),
            (whole[:100], "byte 70: the file ends inside a record: CO takes 162 bytes, 30 are"),
            (whole[:EX_SIZE] + b"QQ" + whole[EX_SIZE:], "byte 70: unknown mark 51 51 ('QQ')"),
            (whole + b"AC", f"byte {len(whole)}: 2 bytes after ZZ"),
            (whole + whole, f"byte {len(whole)}: {len(whole):,} bytes after ZZ"),
            (whole[:last] + end(9, 1, 5), "ZZ does not fit the records, which are 9 begun, 2 answered, "
                                          "1 refused, 6 unusable"),
            (whole[:last] + end(8, 1, 6), "ZZ does not fit the records, which are 9 begun, 2 answer")]:
        holds(jobs("show", "--out", data=data, status=1)[1], message)


def patterns(source, width):
    """Bits of numbers whose decimals are easily wrong: any at all, powers of two and beside them, short decimals, the
    least and the largest."""
    fraction = 52 if width is DOUBLE else 23
    top = 1 << 8 * width.size - 1 - fraction  # exponents
    some = [source.getrandbits(8 * width.size) for _ in range(6000)]
    some += [width.to_bits(source.gauss(0, 10)) for _ in range(3000)]
    some += [e << fraction | last for e in range(top) for last in (0, 1, (1 << fraction) - 1)]
    some += [width.to_bits(round(source.uniform(-1000, 1000), digits)) for digits in range(12) for _ in range(200)]
    some += [width.to_bits(times * 10.0 ** power) for power in range(-323, 308) for times in (1, -2, 5, 9.9999999)]
    return some + list(range(200)) + [width.to_bits(float(1 << n) + 1) for n in range(64)]


@with_bulk
def texts_by_the_library():
    """bulk.c writes every number as floats.py does: of all records, and of patterns that are easily wrong."""
    for table in (JOB, ANSWER):
        data = records(table, 21, 30 * len(table), list(table))
        for at, layout in walk(data, table):
            same(bulk.texts(data, at, layout), texts(layout, layout.bits.unpack_from(data, at + 2)),
                 f"{layout.mark} at {at}")
    for mark in (b"JI", b"ji"):
        layout, bits = ANSWER[mark], patterns(random.Random(22), ANSWER[mark].width)
        size = len(layout.fields)
        for i in range(0, len(bits) - size, size):
            data = mark + layout.bits.pack(*bits[i:i + size])
            same(bulk.texts(data, 0, layout), texts(layout, bits[i:i + size]), "the decimals of some patterns")


def without_the_library():
    """Where bulk.c is not there, the same lines are written."""
    data, functions = records(ANSWER, 23, 400, list(ANSWER)), bulk.functions
    lines = [one_line(data, at, layout) for at, layout in walk(data, ANSWER)]
    bulk.functions = lambda: None
    try:
        same([one_line(data, at, layout) for at, layout in walk(data, ANSWER)], lines, "the lines of all answers")
    finally:
        bulk.functions = functions


TESTS = [texts_by_the_library, without_the_library, layout_of_the_scope, back_by_make, stored_runs, answers_as_text,
         unusable_answers, stored_counts, stored_nans, singles_as_text,
         stored_records, arms_as_text, frames_as_text, older_files, stored_frames, stored_scope_record, single_records,
         guesses, damaged_jobs, damaged_answers]
