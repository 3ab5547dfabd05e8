"""ZZ's counts by mark in `jobs show`, `diff` and `totals`, and in the stored runs."""
import struct

from .common import ROOT, WORK, answers, end, ended, file, holds, jobs, same
from jobs_lib.layout import COUNTED, END, JOB, UNKNOWN

ROWS = (*COUNTED, UNKNOWN)

# The bytes of each record and the order of the counts, once more and apart from the tool.
BYTES = {"EX": 142, "CO": 98, "PA": 282, "AC": 102, "MU": 146, "IN": 78, "JI": 250, "ex": 74, "co": 50, "pa": 142,
         "ac": 54, "mu": 78, "in": 42, "ji": 126,
         "AR": 98, "CH": 78, "RN": 4, "SH": 74, "SQ": 4}


def begun(job):
    """The records begun in a job, by mark: cut ones under theirs, unknown and half marks last; and the mark of the last
    one."""
    counts, at, mark = dict.fromkeys((*BYTES, "unknown"), 0), 0, ""
    while at < len(job):
        mark = job[at:at + 2].decode("latin-1")
        counts[mark if mark in BYTES else "unknown"] += 1
        if mark not in BYTES:
            break
        at += BYTES[mark]
    return list(counts.values()), mark


def stored_totals():
    """The stored answers' counts by mark are those of their jobs, and add up to the first count; every mark has a cut
    record among them, and unknown and half marks are there."""
    cut = set()
    runs = [(path, path.with_suffix(".out")) for path in sorted((ROOT / "tests" / "runs").glob("*.in"))]
    for path, answers_path in [*runs, (ROOT / "crates/sim3_job/stdin", ROOT / "crates/sim3_job/stdout"),
                               (ROOT / "examples/jobs.bin", ROOT / "examples/answers.bin")]:
        job, data = path.read_bytes(), answers_path.read_bytes()
        expected, mark = begun(job)
        first, *by_mark = struct.unpack("<I12x20I", data[-96:])
        same((data[-98:-96], first, by_mark), (b"ZZ", sum(expected), expected), f"the end of {answers_path.name}")
        last = data[:-98][-3:]
        if last in (b"NO\6", b"NO\7"):
            cut.add((last[2], mark if len(mark) == 2 else "half"))
    same({mark for number, mark in cut if number == 7}, {*BYTES, "half"}, "marks with a stored cut record")
    assert sum(number == 6 for number, _ in cut) >= 10, "stored unknown marks"
    same(list(BYTES), list(COUNTED), "the order of the counts")
    same({mark: JOB[mark.encode()].size for mark in BYTES}, BYTES, "bytes of a record")


def last_line():
    """Counts that are 0 are left out of the line unless they are asked for; in bytes all stand."""
    data = b"RN\1\0" + b"NO\6" + end(2, 1)
    same(jobs("show", data=data)[0].decode(),
         "RN n 1\nNO refusal 6  # unknown mark\nZZ begun 2; answered 1; refused 1; unusable 0; CO 1; RN 1\n",
         "the line")
    every = jobs("show", "--counts", data=data)[0].decode().splitlines()[-1]
    same(every, "ZZ begun 2; answered 1; refused 1; unusable 0; "
         + "; ".join(f"{name} {int(name in ('CO', 'RN'))}" for name in ROWS), "all counts")
    for other in (("--record", "1"), ("--unusable",)):
        holds(jobs("show", "--counts", *other, data=data, status=2)[1], "--counts is about ZZ")
    lines = jobs("show", "--hex", data=data)[0].decode().splitlines()
    same((len(lines), lines[-1], lines[-20]), (4 + 25, "     101  00 00 00 00              unknown = 0",
                                               "      25  00 00 00 00              EX = 0"), "bytes of the counts")


def compared():
    """Counts by mark are compared like the others; an end of four counts is named as such."""
    old, new = b"NO\1" + end(1, 1), b"NO\1" + bytes(end(1, 1, 0, co=1))
    text = jobs("diff", file("old", old), file("new", new), status=1)[0].decode()
    holds(text, "end  ZZ  CO  1  ->  0  -1\n", "end  ZZ  co  0  ->  1  +1\n", "different: 1 record (ZZ 1), 2 numbers\n",
          "ZZ 1 begun, 0 answered, 1 refused, 0 unusable\n")
    four = file("four", old[:-80])
    for words, name in (((four, file("new", old)), "OLD"), ((file("old", old), four), "NEW")):
        holds(jobs("diff", *words, status=1)[0].decode().splitlines()[0], name, "ZZ is short, 18 of 98 bytes",
              "first four counts alone", "run the job again")


def counts_that_do_not_fit():
    """By mark: another sum than the first count, fewer than are answered, more than one unknown mark."""
    records = answers()[:-END.size]
    fair = {"EX": 1, "CO": 2, "PA": 1, "AC": 1, "MU": 1, "IN": 1, "JI": 1, "AR": 1}
    for by_mark, message in [({"CO": 1}, "ZZ's counts by mark add up to 8, where 9 are begun"),
                             ({"ji": 1}, "add up to 10, where 9 are begun"),
                             ({"AC": 0, "ac": 1}, "ZZ counts 0 AC, where 1 record of them is answered"),
                             ({"AC": 0, "CO": 0, "unknown": 3},
                              "ZZ counts 3 unknown and half marks, where a job ends at the first")]:
        data = records + bytes(end(9, 1, 6, **(fair | by_mark)))
        holds(jobs("show", "--out", data=data, status=1)[1], message)
        holds(jobs("totals", file("answers", data), status=1)[0].decode(), f"answers: byte {len(records)}: ", message,
              "not added: its counts are not to be trusted")
    same(jobs("show", "--out", data=records + bytes(end(9, 1, 6, **fair)))[1], "", "counts that fit")


def files():
    first = ended(b"RN\1\0" * 3 + b"NO\1", 1)
    second = ended(b"AC" + struct.pack("<3d", 1, 2, float("nan")) + b"RN\2\0")
    return file("first", first), file("second", second)


def added_up():
    """A row for each count, a column for each file and the sum; marks without records on demand; one file has no column
    of its own."""
    first, second = files()
    same(jobs("totals", first, second)[0].decode(), f"file 1  {first}: 4 records\nfile 2  {second}: 2 records\n"
         "count     file 1  file 2  sum\nbegun          4       2    6\nanswered       3       1    4\nrefused        "
         "1       0    1\nunusable       0       1    1\n"
         "by mark:\nCO             1       0    1\nAC             0       1    1\nRN             3       1    4\n"
         "in each file added the marks add up to begun, and so do answered, refused and unusable\n", "the table")
    every = jobs("totals", "--all", first, second)[0].decode().splitlines()
    same([line.split()[0] for line in every[8:-1]], list(ROWS), "a row for every mark")
    holds(jobs("totals", first)[0].decode(), "count     sum\nbegun       4\n", "RN          3\n")
    same(jobs("totals", "-", data=second.read_bytes())[0].decode().splitlines()[0],
         "file 1  (standard input): 2 records", "standard input")
    rows = [line.split(",") for line in jobs("totals", "--csv", first, second)[0].decode().splitlines()]
    same(rows[:6], [["count", str(first), str(second), "sum"], ["begun", "4", "2", "6"], ["answered", "3", "1", "4"],
                    ["refused", "1", "0", "1"],
                    ["unusable", "0", "1", "1"], ["EX", "0", "0", "0"]], "the values")
    same([row[0] for row in rows[5:]], list(ROWS), "a row for every mark")
    same([int(row[-1]) for row in rows if row[0] in ("CO", "AC", "RN")], [1, 1, 4], "their sums")


def long_lists():
    """Of many files the text has the sum alone, and says what has the columns."""
    many = [file(f"answers-{n}", ended(b"RN\1\0" * n)) for n in range(12)]
    text = jobs("totals", *many)[0].decode()
    holds(text, f"file  1  {many[0]}: 0 records\n", f"file 12  {many[11]}: 11 records\n",
          "count     sum\nbegun      66\n", "RN         66\n", "12 files; --csv has a column for each\n")
    same({line.count(",") for line in jobs("totals", "--csv", *many)[0].decode().splitlines()}, {13}, "columns")


def files_that_are_not_whole():
    """They are named with what to do and not added; the others are. The status is 1, or 2 where a file cannot be
    read."""
    first, second = files()
    data = first.read_bytes()
    for bad, message in [(data[:-END.size],
                          "byte 15: ZZ and its counts are missing: the answer is not whole; not added: run the job "
                          "again (./sim3-job < JOBS > ANSWERS)"),
                         (data[:-1],
                          "byte 15: ZZ is short, 97 of 98 bytes: the answer is not whole; not added: run the job "
                          "again"),
                         (data[:-80],
                          "as before records were counted by mark: run the job again; not added: run the job again, so "
                          "that its records are counted by mark"),
                         (data + b"RN",
                          "byte 113: 2 bytes after ZZ; not added: give each answer a file of its own, with nothing "
                          "behind its ZZ"),
                         (data + data, "byte 113: 113 bytes after ZZ; not added: "),
                         (data[:13], "byte 12: the file ends inside a mark, after 4e\n"),
                         (b"", "byte 0: ZZ and its counts are missing"), (b"RN\1\0QQ", "unknown mark 51 51 ('QQ')"),
                         (b"AC" + bytes(100), "it is a job file; not added: give its answers (./sim3-job < ")]:
        path = file("bad", bad)
        text = jobs("totals", path, second, status=1)[0].decode()
        holds(text, f"file 1  {second}: 2 records\n", "\nRN          1\n", f"\n{path}: ", message,
              "\n1 of 2 files not added\n")
        out, messages = jobs("totals", "--csv", second, path, status=1)
        same(out, jobs("totals", "--csv", second)[0], "the values of the whole file")
        holds(messages, f"jobs: {path}: ", message)
    none = WORK.name + "/none"
    text = jobs("totals", none, second, status=2)[0].decode()
    holds(text, f"cannot read {none}: No such file or directory; not added\n", "\nRN          1\n")
    holds(jobs("totals", none, status=2)[0].decode(), "no whole answer file: nothing was added up\n")
    holds(jobs("totals", first, second, first, status=2)[1], f"{first} is given twice; expected each answer file once")
    holds(jobs("totals", "-", "-", status=2)[1], "(standard input) is given twice")
    holds(jobs("totals", status=2)[1], "FILE")


TESTS = [stored_totals, last_line, compared, counts_that_do_not_fit, added_up, long_lists, files_that_are_not_whole]
