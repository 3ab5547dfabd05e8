"""The command line of `jobs`: arguments, help, and what happens on failure."""
import argparse
import re
import signal
import sys
from typing import Any, NamedTuple

from .terminal import INSTALLED, Failure, say, with_command_names

ABOUT = """\
Job files of the Sim(3) engine: make them from text, show them as text, compare their answers, see
which arm gave each coefficient set, which shots lie beside another arm, which takes are kept, and how
many records of each mark several answers have; cut a large job into parts, and merge their answers;
say how far an answer can be from the exact one.
docs/JOB-FORMAT.md has the bytes of every record, and so has `jobs format`. `jobs run` finds the job
program from any folder.

example:
  tools/jobs make examples/jobs.txt > jobs.bin
  tools/jobs run jobs.bin > answers.bin
  tools/jobs show answers.bin
  tools/jobs diff last-answers.bin answers.bin
  tools/jobs arms --svg arms.svg jobs.bin answers.bin
  tools/jobs near --within 1000 jobs.bin
  tools/jobs sort jobs.bin > sorted-jobs.bin
  tools/jobs sheets jobs.bin answers.bin
  tools/jobs totals answers.bin more-answers.bin
  tools/jobs split jobs.bin parts
  tools/jobs merge parts > answers.bin
  tools/jobs accuracy --point 65536 --joins 1000 --every 16
"""

MAKE = """\
Lines of text to a job file on standard output. A line is a mark and its numbers, separated by
blanks or commas; `;` may stand between groups and a group's name before it. `#` starts a comment.
A number is a decimal (1.5, -2e-3, -0), a hexadecimal (0x1.8p3), inf, -inf, nan, or 16 digits of
bits (bits:3ff0000000000000). A frame is a whole number from 0 to 65535, as are n, a sheet and a take;
a pose's two frames, from and to, stand behind its eight numbers, under their group's name or `frames`.
The line `bytes 51 51` puts bytes as they are.

Numbers in brackets may be left out; they are then computed by Python's math. CH's up is then that of
the running pose, as the CH lines before it leave it.
{forms}

The marks in small letters, {singles}, take the same numbers as singles: each is
rounded once to the nearest single, what is left out is computed in doubles and then rounded, and bits
have 8 digits (bits:3f800000).

Where a line is bad, all bad lines are named and nothing is written; the exit status is 2.

example:
  echo 'EX 0.1 0.2 0.3  1 2 3  0.5  frames 3 7' | tools/jobs make > jobs.bin
  echo 'ex 0.1 0.2 0.3  1 2 3  0.5  frames 3 7' | tools/jobs make > jobs.bin
  echo 'AC pose.q 1 0 0 0; pose.t 1 2 3; pose.sigma 0; frames 3 7; point 4 5 6' | tools/jobs make > jobs.bin
"""

SHOW = """\
A job file or an answer file as text, one record a line: numbers as the shortest decimals that read
back exactly, refusals with their meaning, and the counts of ZZ, of those by mark the ones that are not
0 (--counts: every one). `jobs make` turns the lines of a job file into the same bytes again. Which of
the two a file is is guessed unless it is said. With --unusable only the answers that hold a NaN or an
infinity are listed, by their numbers in the file.

Exit status: 0, or 1 where the file is damaged or cut (the byte is named), or 2 if it cannot be read.

example:
  tools/jobs show jobs.bin
  ./sim3-job < jobs.bin | tools/jobs show
  tools/jobs show --hex --record 3 answers.bin
  tools/jobs show --unusable answers.bin
"""

DIFF = """\
Compares two answer files record by record. Each difference is a line with the record's number (from
1), its mark, the field, both values and their distance in units in the last place, of singles where the
mark has small letters; frames differ or are equal. A NaN equals every NaN; zeros of different sign
differ. A file that does not end in ZZ is named first. At the end stands which answers are not usable,
since they hold a NaN or an infinity.

With --by-tangent four files are given, two jobs each with its answers, and the same shots may stand
in another order: EX and PA records are matched by their tangents (and all their other numbers), by
bits. A record's number is then that in the first job, a stroke, and that in the second; what one job
has alone is named. Records of other marks are compared in the order in which they stand.

Exit status: 0 equal and whole, 1 different or not whole, 2 not to be read.

With --html the same also goes to a page that a browser shows from the disk, every difference with both
values, the distance and, with --job, the record's inputs.

example:
  tools/jobs diff --limit 20 last-answers.bin answers.bin
  tools/jobs diff --html diff.html --job jobs.bin last-answers.bin answers.bin
  tools/jobs diff --by-tangent last-jobs.bin last-answers.bin jobs.bin answers.bin
"""

SORT = """\
A job file in a fixed order, to standard output: its EX and PA records by their tangents, smallest
first, in the places where such records stand. A number goes by IEEE 754's totalOrder: NaNs with the
sign, -inf, .., -0, 0, .., inf, other NaNs; the first difference from phi to sigma decides, and then
the mark and the record's other numbers. Records of other marks keep their places.

Exit status: 0, or 2 where the file cannot be read or is damaged or cut (the byte is named).

example:
  tools/jobs sort jobs.bin > sorted-jobs.bin
"""


ARMS = """\
Which arm gave the coefficients of each AR record: how many records each arm has, as a table; with
--svg also as a picture, in the plane of sigma squared and z, with the limits of the arms as lines.
JOBS is a job file, ANSWERS the answers to it; records of other marks are passed over.

Exit status: 0, or 1 where an answer's arm is not the one that the limits give, or ANSWERS is not the
whole answer to JOBS (what is wrong is named), or 2 if a file cannot be read or written.

example:
  tools/jobs arms jobs.bin answers.bin
  tools/jobs arms --svg arms.svg jobs.bin answers.bin
"""


NEAR = """\
Which shots of a job lie beside another arm: the AR and CO records whose z is at most N neighbouring
doubles from one with another arm, up or down, and the co records within N neighbouring singles, nearest
first. Each is a line with the record's number (from 1), the count, the direction, the arm there and its
own. Records of other marks are passed over. The counts are the proved library's, which bindings/build
makes.

Exit status: 0, or 1 where the file is damaged or cut (the byte is named), or 2 if it cannot be read,
or the library is not there.

example:
  bindings/build
  tools/jobs near --within 1000 jobs.bin
"""


SHEETS = """\
Which takes a job keeps: for each sheet the highest take, the record (from 1) that brought it, how often
the sheet was retaken, how many older takes came late, how many were refused as the same take, and how
often SQ asked for it; then which records were refused, by 10, 11 and 12. JOBS is a job file, ANSWERS
the answers to it, which are held against the records; without them the records alone are followed.
With --csv it is one table: a row `kept` for each sheet, a row `refused` for each refused record.

Exit status: 0, or 1 where an answer is not the one that the records before it give, or ANSWERS is not
the whole answer to JOBS, or JOBS is damaged or cut (what is wrong is named), or 2 if a file cannot be
read.

example:
  tools/jobs sheets jobs.bin answers.bin
  tools/jobs sheets --csv jobs.bin > sheets.csv
"""


TOTALS = """\
The counts of several answer files added up, for the monthly sheet: a row for each of ZZ's four counts and
for each mark that has records (--all: for every mark), a column for each file where they are few, and the
sum. With --csv every row and a column for every file. Each file is read through: one that does not end
in its ZZ, whose ZZ is cut, that has bytes behind it, or whose counts do not add up or do not fit its
records is named, with what to do, and is not added.

Exit status: 0 where every file is whole, 1 where one is not, 2 where one cannot be read or is given twice.

example:
  tools/jobs totals answers.bin more-answers.bin
  tools/jobs totals --csv november/*.bin > november.csv
"""


SPLIT = """\
Cuts a job of any size into parts that the job program answers one by one, on the cores of one machine or
on many machines, in any order; `jobs merge` puts the answers together. FOLDER, which is new or empty,
then holds the parts, NAME.in, and the file index. Records of marks without state stand in parts of at
most N records, in their order; all of CH and RN in one part, all of SH and SQ in another, up to 999,998
of each. An unknown mark and a cut record end the job, as in one run. A part begins with two IN records of
its own, by which its answers say of which job and which part they are.

Exit status: 0, or 2 where the job cannot be read or cut.

example:
  tools/jobs split --records 250000 jobs.bin parts
  parallel 'sim3-job < {} > {.}.out' ::: parts/*.in
  tools/jobs merge parts > answers.bin
"""


MERGE = """\
Puts the answers to the parts of a job together: for each part NAME.in of FOLDER, which `jobs split` made,
its answers are NAME.out. To standard output go the bytes that one run of the job program without a limit
would have written. Every part is read through first; answers that are missing, cut, of another job, or of
another part are named with what to do, and then nothing is written.

Exit status: 0, or 1 where a part's answers are not taken, or 2 where FOLDER has no index.

example:
  tools/jobs merge parts > answers.bin
"""


ACCURACY = """\
How far an answer can be from the exact one: the proved bounds of docs/ACCURACY.md, computed in whole
numbers for the sizes given, each the greatest absolute value of its numbers: of points, of e^sigma as it
is handed in, of translations, of rho, whose phi has numbers up to 3/2 (13/8 at singles). With --joins
also those of a running join that is renormalised after every nth product, n at most --every, of poses
whose quaternions have a length within 2^-40 of 1 (2^-20 at singles). Each line has the bound, as a
decimal and as a power of two, and the statement that is proved.

Exit status: 0, or 2 where a size is none or no bound is proved for it.

example:
  tools/jobs accuracy --point 65536 --scale 16 --translation 2^20
  tools/jobs accuracy --single --point 1 --joins 100 --every 16
"""


def make_about():
    """The help of `make`, with each mark's groups, those that may be left out in brackets, and the marks in small
    letters."""
    from .floats import DOUBLE, SINGLE
    from .layout import JOB
    from .make import MAY_MISS, groups_text
    lines = []
    for layout in (layout for layout in JOB.values() if layout.width is DOUBLE):
        line = groups_text(layout.groups)
        for names in MAY_MISS[layout.mark]:
            part = groups_text([g for g in layout.groups if g.name in names])
            line = line.replace("; " + part, f"; [{part}]")
        lines.append(f"  {layout.mark}  {line}")
    singles = " ".join(layout.mark for layout in JOB.values() if layout.width is SINGLE)
    return MAKE.format(forms="\n".join(lines), singles=singles)


def run_about():
    """The help of `run`, with the script's place."""
    from .answer import RUN, SCRIPT
    return RUN.format(script=SCRIPT)


def format_about():
    """The help of `format`."""
    from .answer import FORMAT
    return FORMAT


def record_range(word):
    """`7` or `7-9` as the range of those record numbers."""
    found = re.fullmatch(r"([0-9]+)(?:-([0-9]+))?", word)
    first, last = (int(found[1]), int(found[2] or found[1])) if found else (0, 0)
    if not 1 <= first <= last:
        raise argparse.ArgumentTypeError(f"{word!r} is no record number; expected 7 or 7-9, from 1")
    return range(first, last + 1)


def limit(word):
    if not re.fullmatch(r"[0-9]+", word):
        raise argparse.ArgumentTypeError(f"{word!r} is no limit; expected a whole number from 0")
    return int(word)


def part_size(word):
    from .split import MOST_PART
    most = MOST_PART
    if not re.fullmatch(r"[0-9]+", word) or not 1 <= int(word) <= most:
        raise argparse.ArgumentTypeError(f"{word!r} is no count of records; expected a whole number from 1 to {most:,}")
    return int(word)


def steps(word):
    if not re.fullmatch(r"[0-9]+", word) or not int(word):
        raise argparse.ArgumentTypeError(f"{word!r} is no count of steps; expected a whole number from 1")
    return int(word)


# The commands. Each imports what it needs when it is asked for: the others would take longer than a short job.

def add_make(subparser):
    subparser.add_argument("file", nargs="?", metavar="FILE", help="the text; standard input if not given")


def run_make(arguments):
    from .make import make
    return make(arguments.file)


def add_run(subparser):
    subparser.add_argument("job", nargs="?", metavar="JOBS", help="the job file; standard input if not given")


def run_run(arguments):
    from .answer import run
    return run(arguments.job)


def add_format(subparser):
    subparser.add_argument("marks", nargs="*", metavar="MARK", help="these marks alone")


def run_format(arguments):
    from .answer import format_text
    print(format_text(arguments.marks))
    return 0


def add_show(subparser):
    kind = subparser.add_mutually_exclusive_group()
    kind.add_argument("--in", dest="kind", action="store_const", const="JOB", help="it is a job file")
    kind.add_argument("--out", dest="kind", action="store_const", const="ANSWER", help="it is an answer file")
    subparser.add_argument("--hex", action="store_true", help="the bytes too, one number a line")
    subparser.add_argument("--record", type=record_range, metavar="N[-M]", help="these records alone")
    subparser.add_argument("--counts", action="store_true", help="every count of ZZ by mark, those that are 0 too")
    subparser.add_argument("--unusable", action="store_true",
                     help="which answers hold a NaN or an infinity, and in which numbers")
    subparser.add_argument("file", nargs="?", metavar="FILE", help="the file; standard input if not given")


def run_show(arguments):
    from . import layout
    from .show import show
    if arguments.unusable and (arguments.hex or arguments.record):
        raise Failure("jobs: --unusable stands alone; expected neither --hex nor --record with it")
    if arguments.counts and (arguments.unusable or arguments.record):
        raise Failure("jobs: --counts is about ZZ, which --record and --unusable leave out; expected neither with it")
    table = arguments.kind and getattr(layout, arguments.kind)
    return show(arguments.file, table, arguments.record, arguments.hex, arguments.unusable, arguments.counts)


def add_diff(subparser):
    subparser.add_argument("--limit", type=limit, metavar="N", help="print at most N differences")
    subparser.add_argument("--html", metavar="FILE", help="the differences as a page for a browser too")
    subparser.add_argument("--job", metavar="JOBS",
                           help="the job that both answers are to, whose inputs the page then shows")
    subparser.add_argument("--by-tangent", action="store_true",
                           help="match the shots of two jobs: JOBS ANSWERS JOBS ANSWERS")
    subparser.add_argument("old", metavar="OLD", help="the older answers; with --by-tangent the older job")
    subparser.add_argument("new", metavar="NEW", help="the newer answers; with --by-tangent the older answers")
    subparser.add_argument("more", nargs="*", metavar="FILE", help="with --by-tangent the newer job and its answers")


def run_diff(arguments):
    """Two answer files, or two jobs each with its answers."""
    from .diff import diff
    from .html import PageReport, write_page
    from .order import diff_by_tangent
    files, page, job, most = [arguments.old, arguments.new,
                              *arguments.more], arguments.html, arguments.job, arguments.limit
    if (page or job) and arguments.by_tangent or job and not page:
        raise Failure("jobs: --html goes with OLD NEW alone, and --job with --html; expected neither with --by-tangent")
    if len(files) != (4 if arguments.by_tangent else 2):
        expected = "JOBS ANSWERS JOBS ANSWERS with --by-tangent" if arguments.by_tangent else "OLD NEW"
        raise Failure(f"jobs: diff got {len(files)} files; expected {expected}")
    if page:
        report = PageReport(most)
        return diff(*files, most, report, lambda names, summary: write_page(page, names, summary, report, job))
    return diff_by_tangent(files, most) if arguments.by_tangent else diff(*files, most)


def add_arms(subparser):
    subparser.add_argument("--svg", metavar="FILE", help="the picture to be written")
    subparser.add_argument("job", metavar="JOBS")
    subparser.add_argument("answers", metavar="ANSWERS")


def run_arms(arguments):
    from .arms import arms
    return arms(arguments.job, arguments.answers, arguments.svg)


def add_near(subparser):
    subparser.add_argument("--within", type=steps, default=1000, metavar="N",
                     help="at most N steps from it; 1,000 if not given")
    subparser.add_argument("file", nargs="?", metavar="FILE", help="the job; standard input if not given")


def run_near(arguments):
    from .near import near
    return near(arguments.file, arguments.within)


def add_sort(subparser):
    subparser.add_argument("job", nargs="?", metavar="JOBS", help="the job file; standard input if not given")


def run_sort(arguments):
    from .order import sort
    return sort(arguments.job)


def add_sheets(subparser):
    subparser.add_argument("--csv", action="store_true", help="as comma-separated values")
    subparser.add_argument("job", metavar="JOBS")
    subparser.add_argument("answers", nargs="?", metavar="ANSWERS",
                     help="the answers; without them the records alone are followed")


def run_sheets(arguments):
    from .sheets import sheets
    return sheets(arguments.job, arguments.answers, arguments.csv)


def add_totals(subparser):
    subparser.add_argument("--csv", action="store_true", help="as comma-separated values, with every row")
    subparser.add_argument("--all", action="store_true", help="a row for every mark, those without records too")
    subparser.add_argument("files", nargs="+", metavar="FILE", help="answer files; - for standard input")


def run_totals(arguments):
    from .totals import totals
    return totals(arguments.files, arguments.csv, arguments.all)


def add_split(subparser):
    from .split import MOST_PART
    subparser.add_argument("--records", type=part_size, default=MOST_PART, metavar="N",
                     help="at most N records a part; %(default)s if not given")
    subparser.add_argument("job", metavar="JOBS", help="the job file; - for standard input")
    subparser.add_argument("folder", metavar="FOLDER", help="the folder of the parts, which is made")


def run_split(arguments):
    from .split import split
    return split(arguments.job, arguments.folder, arguments.records)


def add_merge(subparser):
    subparser.add_argument("folder", metavar="FOLDER", help="the folder of the parts and their answers")


def run_merge(arguments):
    from .merge import merge
    return merge(arguments.folder)


def add_accuracy(subparser):
    subparser.add_argument("--single", action="store_true", help="at singles")
    for name, about in (("point", "of the points"), ("scale", "of e^sigma"), ("translation", "of the translations"),
                        ("rho", "of rho")):
        subparser.add_argument(f"--{name}", default="1", metavar="SIZE",
                               help=f"the greatest number {about}; 1 if not given")
    subparser.add_argument("--joins", type=limit, default=0, metavar="N", help="after at most N joins")
    subparser.add_argument("--every", type=steps, default=1, metavar="n",
                           help="renormalised after every nth product; 1 if not given")


def run_accuracy(arguments):
    from .accuracy import report
    return report(arguments)


class Command(NamedTuple):
    """A line about it, its help or what makes that, what adds its arguments, and what does it, which gives the
    status."""

    summary: str
    about: Any
    add: Any
    run: Any


COMMANDS = {
    "make": Command("text to a job file", make_about, add_make, run_make),
    "run": Command("answer a job file by the job program", run_about, add_run, run_run),
    "format": Command("the bytes of every record", format_about, add_format, run_format),
    "show": Command("a job or answer file to text", SHOW, add_show, run_show),
    "diff": Command("compare two answer files", DIFF, add_diff, run_diff),
    "arms": Command("count and draw the arms of AR records", ARMS, add_arms, run_arms),
    "near": Command("which shots lie beside another arm", NEAR, add_near, run_near),
    "sort": Command("a job file in the order of its tangents", SORT, add_sort, run_sort),
    "sheets": Command("which take of each sheet is kept, and what was refused", SHEETS, add_sheets, run_sheets),
    "totals": Command("add up the counts of several answer files by mark", TOTALS, add_totals, run_totals),
    "split": Command("cut a job into parts for several cores or machines", SPLIT, add_split, run_split),
    "merge": Command("put the answers of a job's parts together", MERGE, add_merge, run_merge),
    "accuracy": Command("how far an answer can be from the exact one, as proved", ACCURACY, add_accuracy, run_accuracy),
}


def parser(names=tuple(COMMANDS)):
    """The parser of the command line; only the commands of these names have their help and arguments."""
    top = argparse.ArgumentParser(prog="sim3-jobs" if INSTALLED else "jobs", description=with_command_names(ABOUT),
                                  formatter_class=argparse.RawDescriptionHelpFormatter)
    commands = top.add_subparsers(dest="command", metavar="COMMAND", required=True)
    for name, command in COMMANDS.items():
        about = (command.about() if callable(command.about) else command.about) if name in names else ""
        subparser = commands.add_parser(name, help=command.summary, description=with_command_names(about),
                                  formatter_class=argparse.RawDescriptionHelpFormatter)
        if name in names:
            command.add(subparser)
    return top


def main(words):
    if hasattr(signal, "SIGPIPE"):
        signal.signal(signal.SIGPIPE, signal.SIG_DFL)  # a reader that leaves, as `head`, is no error
    sys.stdout.reconfigure(errors="backslashreplace")  # a file's name may hold any bytes
    try:
        arguments = parser(words[:1]).parse_args(words)
        return COMMANDS[arguments.command].run(arguments)
    except Failure as failure:
        say(str(failure))
        return failure.status
    except KeyboardInterrupt:
        sys.stderr.write("\njobs: interrupted; the output is not whole\n")
        return 130
    except OSError as error:
        sys.stderr.write(f"jobs: output stopped: {error.strerror}; it is not whole\n")
        return 2
