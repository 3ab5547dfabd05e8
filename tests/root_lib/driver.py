"""The driver: the wrapper's archive from a repository of its own, and drive.c linked with it."""
import os
import pathlib
import struct
import subprocess
import sys

from .wrapper import SOURCE

HERE = pathlib.Path(__file__).resolve().parent
TOP = HERE.parent.parent
OUT = TOP / "target/root"
DRIVE, ARCHIVE = OUT / "drive", OUT / "libroot_calls.a"
USED = "ieee linalg root".split()
sys.path.insert(0, str(HERE.parent / "calls"))
import scratch  # noqa: E402


def archive():
    """The wrapper's archive, which is made where it or a crate below has changed."""
    if scratch.is_current(SOURCE, USED, ARCHIVE):
        return
    try:
        scratch.archive("root_calls", USED, SOURCE, ARCHIVE)
    except (scratch.NotProved, OSError) as error:
        raise SystemExit(f"{error}root: proving and building the wrapper failed, as said above") from None


def run(words, what, **options):
    """Runs a command; what it said is shown only where it failed."""
    try:
        done = subprocess.run(words, stdout=subprocess.PIPE, stderr=subprocess.STDOUT, text=True, **options)
    except OSError as error:
        raise SystemExit(f"root: {what}: {error}") from None
    if done.returncode:
        raise SystemExit(f"{done.stdout}root: {what}: '{words[0]}' failed, as said above")


def build():
    archive()
    compiler = os.environ.get("CC", "cc")
    words = [compiler, "-std=gnu11", "-O2", "-Wall", "-Wextra", "-Werror", HERE / "drive.c", ARCHIVE, "-o", DRIVE,
             "-lm"]
    run([str(word) for word in words], "compiling tests/root_lib/drive.c")


def answers(patterns):
    """For each pattern the five words that drive writes."""
    inputs = struct.pack(f"<{len(patterns)}Q", *patterns)
    output = subprocess.run([str(DRIVE)], input=inputs, stdout=subprocess.PIPE, check=True).stdout
    return struct.iter_unpack("<5Q", output)


def timed():
    return subprocess.run([str(DRIVE), "--time"]).returncode
