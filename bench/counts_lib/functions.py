"""Instructions of a call of each function of docs/PERFORMANCE.md's rows: in the wrappers of tests/calls, and in the
library for C."""
import os
import pathlib
import re
import shutil
import subprocess
import tempfile

from counts_lib.callgrind import Failed, parts

top = pathlib.Path(__file__).resolve().parent.parent.parent
SOURCE = pathlib.Path(__file__).resolve().parent / "rows.c"
# What is counted: its name, the flags and the libraries of its program.
PROGRAMS = {
    "wrapper, f64": (["-Wall"], [top / "target/calls/libcalls.a"]),
    "wrapper, f32": (["-DSINGLE"], [top / "target/calls/libcalls_f32.a"]),
    "C, f64": (["-DLIBRARY", f"-I{top}/include"], [top / "target/bindings/libsim3.a"]),
    "C, f32": (["-DLIBRARY", "-DSINGLE", f"-I{top}/include"], [top / "target/bindings/libsim3.a"]),
}


def missing():
    """What has to be built first, if anything."""
    for _, libraries in PROGRAMS.values():
        for library in libraries:
            if not library.exists():
                return library.relative_to(top)
    return None


def build(folder, flags, libraries):
    program = folder / "rows"
    compiler = os.environ.get("CC", "cc")
    if not shutil.which(compiler):
        raise Failed(f"the C compiler '{compiler}' is not on PATH")
    done = subprocess.run([compiler, "-std=c99", "-O2", *flags, "-o", program, SOURCE, *libraries, "-lm"],
                          capture_output=True, text=True)
    if done.returncode != 0:
        raise Failed(f"{SOURCE.relative_to(top)} was not built:\n{done.stderr}")
    return program


def function_names(flags):
    """The names of the functions that rows.c calls: only they are counted, whatever compiles rows.c."""
    ending = "_f32" if "-DSINGLE" in flags else ""
    names = re.findall(r"AT\((sim3_\w+|call_\d+)\)", SOURCE.read_text(encoding="utf-8"))
    return sorted({name + ending for name in names})


def rows():
    """Yields (name, instructions) of each row."""
    for what, (flags, libraries) in PROGRAMS.items():
        with tempfile.TemporaryDirectory() as folder:
            for name, total in parts(build(pathlib.Path(folder), flags, libraries), only=function_names(flags)):
                function, arm, count = name.split(" | ")
                yield " | ".join(word for word in (what, function, arm.strip()) if word), total / int(count)
