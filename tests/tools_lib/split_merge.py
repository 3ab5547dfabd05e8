"""`jobs split` and `jobs merge`: a job in parts has one run's bytes; every wrong part is reported; nothing is written
then."""
import contextlib
import json
import os
import pathlib
import random
import shutil
import subprocess
import sys

from .common import END, PROGRAM, ROOT, WORK, file, holds, jobs, program, records, same, with_bulk, with_program
from jobs_lib import bulk, split
from jobs_lib.layout import ANSWER, JOB, JOIN, SHEETS
from jobs_lib.records import walk

STATELESS = [mark for mark in JOB if mark not in JOIN + SHEETS]
# what may stand behind the last whole record
ENDS = (b"", b"Q", b"QQ and more", b"CH\0\0", b"MU" + bytes(100), b"SQ\1")


@contextlib.contextmanager
def without_bulk():
    """Runs a block as if bulk.c were not built."""
    before, bulk.functions = bulk.functions, lambda: None
    try:
        yield
    finally:
        bulk.functions = before


def folder(name):
    path = pathlib.Path(WORK.name, "parts of " + name)
    shutil.rmtree(path, ignore_errors=True)
    return path


def shuffled(seed, count, marks=None):
    """Records of every mark, or of those given, in any order."""
    some = records(JOB, seed, count, marks or list(JOB))
    found = [some[at:at + layout.size] for at, layout in walk(some, JOB)]
    random.Random(seed).shuffle(found)
    return b"".join(found)


def write_answers(parts):
    """Every part's answers beside it."""
    for path in parts.glob("*.in"):
        path.with_suffix(".out").write_bytes(program(path.read_bytes()))


def in_parts(name, data, most):
    """What split, the program on each part, and merge give."""
    parts = folder(name)
    jobs("split", "--records", most, file(name + ".bin", data), parts)
    write_answers(parts)
    return jobs("merge", parts)[0]


def files(parts):
    """The files of a folder."""
    return {path.name: path.read_bytes() for path in parts.iterdir()}


def cut_by(implementation, data, at, end, most):
    """All that `cut` gives where each group takes so many records in all: the byte behind it, the order, the pieces."""
    order, pieces, left = b"", [b"", b"", b""], list(most)
    while True:
        some = implementation.cut(data, at, end, left)
        if not some.order:
            return at, order, pieces
        same(len(some.order), sum(some.records), "the records of a cut")
        at, order = some.at, order + some.order
        pieces = [before + bytes(piece) for before, piece in zip(pieces, some.pieces)]
        left = [count - taken for count, taken in zip(left, some.records)]


def interleaved_by(implementation, order, pieces):
    """All that `interleave` gives of three groups' answers, and where it stopped in each."""
    sources, out = [bulk.Source(piece, 0, len(piece)) for piece in pieces], b""
    while order:
        some, done = implementation.interleave(order, sources)
        if not done:
            break
        out, order = out + bytes(some), order[done:]
    return out, len(order), [source.at for source in sources]


@with_bulk
def compiled_and_plain():
    """bulk.c gives what its Python gives: from any byte to any byte, with any room, with bytes that are no record."""
    source = random.Random(14)
    for seed in range(60):
        table = (JOB, ANSWER)[seed % 2]
        data = (shuffled(seed, 700) if table is JOB
                else records(ANSWER, seed, 700, list(ANSWER))) + ENDS[seed % len(ENDS)]
        end = source.choice([len(data), source.randrange(len(data))])
        at = source.choice([0, 0, min(end, source.randrange(300))])
        group_of = {mark: split.GROUPS.get(mark, 0) for mark in table}
        most = [source.choice([0, 1, 5, 400, 10_000]) for _ in range(3)] if seed % 3 else [10_000] * 3
        pure, compiled = bulk.PurePython(table, group_of), bulk.Compiled(table, group_of)
        same(compiled.count(data, at, end), pure.count(data, at, end), f"count {seed}")
        if table is ANSWER:
            same(compiled.unusable(data, at, end), pure.unusable(data, at, end), f"unusable {seed}")
        found = cut_by(pure, data, at, end, most)
        same(cut_by(compiled, data, at, end, most) == found, True, f"cut {seed}")
        same(interleaved_by(compiled, *found[1:]) == interleaved_by(pure, *found[1:]), True, f"interleave {seed}")
        same(interleaved_by(pure, *found[1:])[0] == data[at:found[0]], True,
             f"what cut took apart, interleaved again, {seed}")
        shorter = [piece[:source.randrange(len(piece) + 1)] for piece in found[2]]
        same(interleaved_by(compiled, found[1], shorter) == interleaved_by(pure, found[1], shorter), True,
             f"interleave of cut answers {seed}")


@with_program
def stored_runs_in_parts():
    """Every stored run, whose answers are the Rust's, in small parts: unknown marks, cut records, all that has
    state."""
    for path in sorted((ROOT / "tests" / "runs").glob("*.in")):
        data = path.read_bytes()
        most = sum(1 for _ in walk(data, JOB)) // 3 + 1
        same(in_parts("stored", data, most) == path.with_suffix(".out").read_bytes(), True,
             f"the answers to {path.name} in parts of {most}")


@with_program
def one_run():
    """A job within the limit gives one run's bytes, whatever the size of the parts; so does one of one group, an empty
    one, one of one record."""
    for seed, count, marks, most in ((1, 5000, None, 1700), (2, 5000, None, 999_998), (3, 3000, STATELESS, 7),
                                     (4, 900, list(JOIN), 900), (5, 900, list(SHEETS), 900),
                                     (6, 400, None, 400), (7, 1, [b"AC"], 1), (8, 0, None, 5)):
        data = shuffled(seed, count, marks)
        for tail in ENDS:
            expected = program(data + tail)
            same(in_parts("one", data + tail, most) == expected, True,
                 f"{count} records in parts of {most}, with {tail[:4]} behind them")


@with_program
def without_the_library():
    """The same where bulk.c is not there: the same parts, and the same answers."""
    for seed, most in ((16, 300), (17, 2000)):
        data = shuffled(seed, 1500) + ENDS[seed % len(ENDS)]
        parts = folder("with")
        jobs("split", "--records", most, file("with.bin", data), parts)
        expected = files(parts)
        with without_bulk():
            same(in_parts("with", data, most) == program(data), True, f"the answers to parts of {most}")
        same({name: files(parts)[name] for name in expected} == expected, True, f"the parts of {most}")


@with_program
def boundaries():
    """Parts hold as many records as they may and no more, in order; state stands in one part each."""
    data = shuffled(9, 2000)
    parts = folder("bounds")
    messages = jobs("split", "--records", 500, file("bounds.bin", data), parts)[1]
    holds(messages, "2,000 records in ", "join.in has all of CH and RN; sheets.in has all of SH and SQ")
    index = json.loads((parts / "index").read_bytes().partition(b"\n")[0])
    for part in index["parts"]:
        layouts = [layout for _, layout in walk((parts / (part["name"] + ".in")).read_bytes(), JOB)]
        same(len(layouts), part["records"] + 2, f"records of {part['name']}")
        marks = {layout.mark.encode() for layout in layouts[2:]}
        same(marks <= {"f": set(STATELESS), "j": set(JOIN), "k": set(SHEETS)}[part["group"]], True,
             f"marks of {part['name']}")
    same([part["records"] for part in index["parts"] if part["group"] == "f"][:-1],
         [500] * (sum(p["group"] == "f" for p in index["parts"]) - 1), "records of each part")
    again = folder("again")
    jobs("split", "--records", 500, file("bounds.bin", data), again)
    same(files(again) == files(parts), True, "a second split")
    other = folder("of another size")
    jobs("split", "--records", 600, file("bounds.bin", data), other)
    same((parts / "join.in").read_bytes()[:156] == (other / "join.in").read_bytes()[:156], False,
         "that heads say the size of the parts")


@with_program
def wrong_parts():
    """Answers that are missing, cut, of another job or of another part are named with what to do, and nothing is
    written."""
    parts, other = folder("wrong"), folder("other")
    data = shuffled(10, 3000, STATELESS)
    jobs("split", "--records", 1000, file("wrong.bin", data), parts)
    jobs("split", "--records", 1000, file("other.bin", shuffled(11, 3000, STATELESS)), other)
    write_answers(parts)
    write_answers(other)
    good = {path.name: path.read_bytes() for path in parts.glob("*.out")}
    whole = jobs("merge", parts)[0]
    for what, change in ((("00002.out: missing: run it again (sim3-job < 00002.in > 00002.out)",), None),
                         (("00002.out: byte", "not whole"), good["00002.out"][:-1]),
                         (("00002.out: byte", "not whole"), good["00002.out"][:5000]),
                         (("00002.out: cut, or no answers to a part",), b""),
                         (("00002.out: of another job",), (other / "00002.out").read_bytes()),
                         (("00002.out: the answers of part 00003, which so stand there twice",), good["00003.out"]),
                         (("00002.out: cut, or no answers to a part",), program(data)),
                         (("00002.out: byte", "after ZZ"), good["00002.out"] + b"ZZ"),
                         (("00002.out: byte", "ZZ does not fit"),
                          good["00002.out"][:150] + good["00002.out"][150 + 8:][:0]
                          + without_a_record(good["00002.out"])[150:])):
        path = parts / "00002.out"
        path.unlink() if change is None else path.write_bytes(change)
        out, messages = jobs("merge", parts, status=1)
        same(out, b"", "what is written")
        holds(messages, *what, "1 of 3 parts not taken, so nothing is written")
        path.write_bytes(good["00002.out"])
    same(jobs("merge", parts)[0] == whole, True, "the answers once more")


def without_a_record(data):
    """Answers that lack one record in the middle."""
    places = [(at, layout.size) for at, layout in walk(data, ANSWER)]
    at, size = places[len(places) // 2]
    return data[:at] + data[at + size:]


def what_is_refused():
    """A folder with something in it, no index, a cut index, more state than a part holds, and a size that is none."""
    parts = folder("full")
    parts.mkdir()
    (parts / "kept").write_bytes(b"")
    job = file("few.bin", shuffled(12, 40))
    holds(jobs("split", job, parts, status=2)[1], "is not empty; expected a new one")
    holds(jobs("merge", parts, status=2)[1], "index")
    holds(jobs("split", "--records", 3, file("state.bin", b"RN\1\0" * 999_999), folder("state"), status=2)[1],
          "more than 999,998 records of CH and RN", "begin a new job")
    jobs("split", "--records", 3, file("state.bin", b"RN\1\0" * 999_998), folder("state"))
    for word in ("0", "999999", "1.5", "-1"):
        holds(jobs("split", f"--records={word}", job, folder("none"), status=2)[1],
              "is no count of records; expected a whole number from 1 to 999,998")
    jobs("split", "--records", 20, job, folder("index"))
    path = pathlib.Path(WORK.name, "parts of index", "index")
    whole = path.read_bytes()
    for data in (whole[:-1], whole[:40], b"{}\n", b"", whole[:-1] + b"q",
                 whole[:-1] + (b"k" if whole[-1:] == b"f" else b"f")):
        path.write_bytes(data)
        holds(jobs("merge", path.parent, status=2)[1], "no index of `jobs split`, or is cut; split the job again")


def without_answers():
    """All parts that are missing are named, not the first alone."""
    parts = folder("missing")
    jobs("split", "--records", 10, file("few.bin", shuffled(12, 60, STATELESS)), parts)
    messages = jobs("merge", parts, status=1)[1]
    same(messages.count(": missing: "), 6, "parts that are named")
    holds(messages, "6 of 6 parts not taken")


@with_program
def by_parallel():
    """The line of README: GNU parallel runs the parts, or xargs where it is not installed."""
    parts, data = folder("parallel"), shuffled(13, 20_000)
    jobs("split", "--records", 6000, file("parallel.bin", data), parts)
    if shutil.which("parallel"):
        words = ["parallel", "--will-cite", "-j", "2", f"{PROGRAM} < {{}} > {{.}}.out", ":::",
                 *map(str, sorted(parts.glob("*.in")))]
    else:
        words = ["sh", "-c",
                 'printf "%s\\n" "$2"/*.in | xargs -P 2 -I {} sh -c \'"$0" < "$1" > "${1%.in}.out"\' "$1" {}', "sh",
                 str(PROGRAM), str(parts)]
    same(subprocess.run(words, stderr=subprocess.PIPE, env={**os.environ, "HOME": WORK.name}).returncode, 0,
         "exit status of the parts' runs")
    same(jobs("merge", parts)[0] == program(data), True, "the answers")
    same(len(program(data)) > 20 * END.size, True, "that there are answers")


@with_program
def many_parts():
    """More parts than a process may have files open."""
    data, parts = shuffled(15, 400, STATELESS), folder("many")
    jobs("split", "--records", 2, file("many.bin", data), parts)
    write_answers(parts)
    words = ["sh", "-c", 'ulimit -n 24; exec "$0" -B "$1" merge "$2"', sys.executable, str(ROOT / "tools" / "jobs"),
             str(parts)]
    done = subprocess.run(words, stdout=subprocess.PIPE, stderr=subprocess.PIPE)
    same((done.returncode, done.stderr), (0, b""), "a merge of 200 parts with 24 files open")
    same(done.stdout == program(data), True, "its answers")


def nothing_to_write_to():
    """A folder that cannot be written is named, with what to do."""
    parts = folder("full disk")
    parts.mkdir()
    with full_disk():
        holds(jobs("split", file("few.bin", shuffled(12, 40)), parts, status=2)[1], "cannot be written: No space left",
              "split the job again")


@contextlib.contextmanager
def full_disk():
    """A block in which every part is written to a full disk."""
    split.open = lambda path, mode: open("/dev/full", mode)
    try:
        yield
    finally:
        del split.open


TESTS = [compiled_and_plain, many_parts, nothing_to_write_to, stored_runs_in_parts, one_run,
         without_the_library, boundaries, wrong_parts, what_is_refused, without_answers, by_parallel]
