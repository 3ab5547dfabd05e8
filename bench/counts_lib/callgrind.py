"""Programs under callgrind: the instructions of a whole run, and of each part that a program has counted by itself."""
import os
import pathlib
import re
import subprocess
import tempfile

# The C library picks its copying routines by the processor: with these left out it picks the same ones everywhere.
SAME_EVERYWHERE = {"GLIBC_TUNABLES": "glibc.cpu.hwcaps=-AVX512F,-AVX2,-AVX,-ERMS,-FSRM"}


class Failed(Exception):
    """A program failed under callgrind; the text says how."""


def run(program, words, file, source=None, only=()):
    """Runs a program with its counts in a file of that name, and returns valgrind's messages. Counts only the
    functions named in `only`, if there are any."""
    within = [f"--toggle-collect={name}" for name in only]
    call = ["valgrind", "--tool=callgrind", f"--callgrind-out-file={file}", *within, str(program), *words]
    with open(source or os.devnull, "rb") as read:
        done = subprocess.run(call, stdin=read, stdout=subprocess.DEVNULL, stderr=subprocess.PIPE, text=True,
                              env={**os.environ, **SAME_EVERYWHERE})
    if done.returncode != 0:
        raise Failed(f"{' '.join(call)} ended with {done.returncode}:\n{done.stderr[-2000:]}")
    return done.stderr


def total_instructions(program, source):
    """The instructions of one run of a program on an input."""
    messages = run(program, [], os.devnull, source)
    return int(re.search(r"Collected : (\d+)", messages).group(1))


def parts(program, *words, only=()):
    """Yields name and instructions of each part, in order: callgrind writes a file for each request."""
    with tempfile.TemporaryDirectory() as folder:
        run(program, words, f"{folder}/out", only=only)
        for path in sorted(pathlib.Path(folder).glob("out.*"), key=lambda path: int(path.suffix[1:])):
            text = path.read_text()
            name = re.search(r"^desc: Trigger: Client Request: (.*)$", text, re.M)
            total = re.search(r"^(?:totals|summary): (\d+)", text, re.M)
            if name and total:
                yield name.group(1), int(total.group(1))
