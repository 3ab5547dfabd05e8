"""`jobs run` and `jobs format`: the job program, found from any folder, and the bytes of its records."""
import os
import pathlib

from . import page
from .floats import SINGLE
from .layout import ANSWER, END, JOB
from .terminal import Failure

SCRIPT = pathlib.Path(__file__).resolve().parents[2] / "sim3-job"

RUN = """\
Answers a job file by the script sim3-job, which stands at
  {script}
The answers go to standard output. At first use the script has the program proved and built.

Exit status: that of sim3-job. 0: the output is whole and ends in ZZ. 1: a read or a write failed, as
standard error says: the output is not whole. 2: no job was begun. 128 + n: signal n ended the program:
the output may be cut.

example:
  tools/jobs run jobs.bin > answers.bin
  tools/jobs make examples/jobs.txt | tools/jobs run | tools/jobs show
"""

FORMAT = """\
The bytes of every record, as docs/JOB-FORMAT.md has them, or of some marks: where each group of
numbers begins in the record, and what it is.

example:
  tools/jobs format
  tools/jobs format AC ac NO ZZ
"""


def run(path):
    """Becomes ./sim3-job with the file as its standard input; so the exit status is that script's."""
    if path is not None:
        try:
            job = os.open(path, os.O_RDONLY)
        except OSError as error:
            raise Failure(f"jobs: {path} cannot be read: {error.strerror}")
        os.dup2(job, 0)
    try:
        os.execv(SCRIPT, [str(SCRIPT)])
    except OSError as error:
        raise Failure(f"jobs: {SCRIPT} cannot be run: {error.strerror}")


def of_mark(mark):
    """The bytes of one mark's record and of its answer."""
    tables = [("in", JOB.values()), ("out", [*ANSWER.values(), END])]
    found = [(direction, layout) for direction, table in tables for layout in table if layout.mark == mark]
    if not found:
        marks = dict.fromkeys(layout.mark for _, table in tables for layout in table)
        raise Failure(f"jobs: {mark!r} is no mark; expected one of {' '.join(marks)}")
    return "\n".join((page.short_text if layout.width is SINGLE else page.layout_text)(direction, layout)
                     for direction, layout in found)


def format_text(marks):
    """The parts of docs/JOB-FORMAT.md that have the bytes, or those of some marks."""
    if marks:
        return "\n".join(of_mark(mark) for mark in marks)
    return "\n\n".join(f"{name[0].upper()}{name[1:]}:\n{text}" for name, text in page.page_parts("").items() if text)
