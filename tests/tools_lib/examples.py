"""The tool as a program, the page docs/JOB-FORMAT.md, examples/format and examples/jobs.bin."""
import os
import pathlib
import re
import shutil
import subprocess
import tempfile

from .common import PROGRAM, ROOT, TOOL, file, holds, jobs, program, same, with_program
from jobs_lib import page
from jobs_lib.floats import SINGLE
from jobs_lib.layout import JOB

PAGE = ROOT / "docs" / "JOB-FORMAT.md"
GUIDE = ROOT / "docs" / "JOBS.md"
FORMAT = ROOT / "examples" / "format"
RENEW = "(tests/tools --renew writes it anew)"


def as_a_program():
    """The commands of the page, run as a user runs them."""
    made = subprocess.run([TOOL, "make", ROOT / "examples" / "jobs.txt"], stdout=subprocess.PIPE)
    same(made.returncode, 0, "make's exit status")
    shown = subprocess.run([TOOL, "show"], input=made.stdout, stdout=subprocess.PIPE)
    same((shown.returncode, shown.stdout), (0, jobs("show", data=made.stdout)[0]), "show")
    job = file("job", made.stdout)
    found = subprocess.run([TOOL, "diff", job, job], stdout=subprocess.PIPE, stderr=subprocess.PIPE)
    same((found.returncode, found.stdout), (2, b""), "diff of job files")


def help_has_examples():
    names = ("make", "show", "diff", "arms", "near", "sort", "sheets", "totals", "accuracy", "run", "format")
    for words in [["--help"], *([name, "--help"] for name in names)]:
        holds(jobs(*words)[0].decode(), "example:\n", "tools/jobs ")
    holds(jobs(status=2)[1], "COMMAND")
    holds(jobs("shwo", status=2)[1], "shwo", "make", "show", "diff", "arms", "sheets", "totals")


def help_says_what_the_page_says():
    """The bytes by `jobs format` are the page's, and the exit statuses by the script's help the guide's."""
    output, whole = jobs("format")[0].decode(), PAGE.read_text()
    for name, part in page.page_parts("").items():
        holds(output, part.rstrip())
        assert not part or f"<!-- generated: {name} -->\n```\n{part.rstrip()}\n" in whole, (
            f"{PAGE.name} has other {name} {RENEW}")
    holds(jobs("format", "AC", "mu")[0].decode(), "AC in, 102 bytes", "AC out, 26 bytes", "mu in,")
    holds(jobs("format", "XX", status=2)[1], "'XX' is no mark", "AC")
    script = subprocess.run([ROOT / "sim3-job", "--help"], stdout=subprocess.PIPE, text=True, check=True).stdout
    holds(script, f"{TOOL}", f"{PAGE}")
    statuses = re.findall(r"^  (\S+(?: \+ n)?) {2,}(.*)$", script, re.M)
    same([status for status, _ in statuses], ["0", "1", "2", "3", "128 + n", "141"],
         "the exit statuses of sim3-job --help")
    holds(" ".join(GUIDE.read_text().split()), *(f"{status}: {text}" for status, text in statuses))


@with_program
def from_any_folder():
    """The tool finds the script from another folder and through links; in a tree whose script is a stand-in, so that
    nothing is proved here."""
    job, expected = ((ROOT / "examples" / name).read_bytes() for name in ("jobs.bin", "answers.bin"))
    with tempfile.TemporaryDirectory() as work:
        for part in ("tools", "bindings/python"):
            shutil.copytree(ROOT / part, f"{work}/a tree/{part}", ignore=shutil.ignore_patterns("__pycache__"))
        script = pathlib.Path(work, "a tree", "sim3-job")
        script.write_text(f'#!/bin/sh\nexec "{PROGRAM}"\n')
        script.chmod(0o755)
        os.symlink("a tree/tools/jobs", f"{work}/jobs")
        os.symlink(f"{work}/jobs", f"{work}/again")
        for words in (["jobs", "run", ROOT / "examples" / "jobs.bin"], ["again", "run"]):
            done = subprocess.run([f"{work}/{words[0]}", *words[1:]], cwd="/", input=job, stdout=subprocess.PIPE,
                                  stderr=subprocess.PIPE)
            same((done.returncode, done.stdout), (0, expected), f"{words[0]} {done.stderr.decode()}")
        done = subprocess.run([f"{work}/jobs", "run", "none.bin"], cwd=work, stdout=subprocess.PIPE,
                              stderr=subprocess.PIPE)
        same((done.returncode, done.stdout), (2, b""), "jobs run of no file")


def same_lines(found, expected, what):
    for line, other in zip(found.splitlines(), expected.splitlines()):
        same(line, other, f"a line of {what} {RENEW}")
    same(found.rstrip(), expected.rstrip(), f"{what} {RENEW}")


def page_parts():
    return page.page_parts((FORMAT / "AC.txt").read_text())


def page_is_current():
    """The page's generated parts are those of the job table and of examples/format/AC.txt."""
    text = PAGE.read_text()
    same_lines(text, page.fill(text, page_parts()), PAGE.name)
    for path in FORMAT.iterdir():
        holds(text, f"examples/format/{path.name}")


def example_jobs():
    """Each example's job file follows from its lines of text; a mark in small letters has one of another name, not of
    another case."""
    names = {layout.mark + ("-f32" if layout.width is SINGLE else "") for layout in JOB.values()}
    same(names - {path.stem for path in FORMAT.iterdir()}, set(), "marks without an example")
    for path in FORMAT.iterdir():
        whole = path.read_text()
        text = page.example_text(whole)
        made = page.example(text, jobs("make", data=text.encode())[0], b"")
        same_lines(page.without_answer(whole), page.without_answer(made), path.name)


def example_with_answer(path):
    """An example's file as the program makes it today."""
    text = page.example_text(path.read_text())
    job = jobs("make", data=text.encode())[0]
    return page.example(text, job, program(job))


@with_program
def example_answers():
    """Each example's answer is the program's."""
    for path in FORMAT.iterdir():
        same_lines(path.read_text(), example_with_answer(path), path.name)


@with_program
def stored_job():
    """Every record of examples/jobs.bin has its answer, and two runs are equal."""
    data = (ROOT / "examples" / "jobs.bin").read_bytes()
    answer = file("answers", program(data))
    text = jobs("show", answer)[0].decode()
    marks = " ".join(line.split()[0] for line in text.splitlines())
    same(marks,
         "EX EX CO CO NO PA AC MU NO IN JI NO AR AR AR ex co co NO pa ac mu in ji RN CH CH NO CH SH SH SH NO SQ NO ZZ",
         "the answers' marks")
    holds(text, "EX pose.q 1.0 0.0 0.0 0.0; pose.t 1.0 2.0 3.0; pose.sigma 0.0; pose.frames 0 0\n",
          "AC point 5.0 7.0 9.0\n", "; product.frames 7 1\nNO refusal 9", "; inverse.frames 1 3\n", "NO refusal 1",
          "NO refusal 2",
          "  # 11 terms\n", "  # closed; v0, w0 by series\n", "  # closed\n", "ac point 5.0 7.0 9.0\nmu product.q ",
          "RN n 2\nCH running.q 0.8 0.6 0.0 0.0; ", "running.frames 7 1\nNO refusal 9", "running.frames 9 1\n",
          "SH outcome 1; before 0  # new\nSH outcome 2; before 1  # replaces\nSH outcome 3; before 3  # older, not "
          "kept\nNO refusal 10", "SQ take 3; pose.q 0.8 0.6 ", "NO refusal 12",
          "ZZ begun 35; answered 28; refused 7; unusable 0; EX 2; CO 3; ", "; AR 3; CH 4; RN 1; SH 4; SQ 2\n")
    same(answer.read_bytes(), (ROOT / "examples" / "answers.bin").read_bytes(), "examples/answers.bin")
    second = jobs("diff", answer, file("again", program(data)))[0].decode()
    holds(second, "equal: 35 records")


def renew():
    """Writes the examples and the page's generated parts anew; the program must be built."""
    for path in FORMAT.iterdir():
        path.write_text(example_with_answer(path))
    PAGE.write_text(page.fill(PAGE.read_text(), page_parts()))
    return 0


TESTS = [as_a_program, help_has_examples, help_says_what_the_page_says, from_any_folder, page_is_current, example_jobs,
         example_answers, stored_job]
