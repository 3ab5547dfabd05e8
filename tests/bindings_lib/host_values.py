"""The host's values of the three bindings: the same numbers, and those that tools/jobs make fills in; at both
widths."""
import random
import struct
import tempfile

from .common import bits, compiler, packed, run, rust_program, same
from .records import split_numbers
from jobs_lib import floats
from jobs_lib.layout import JOB
from sim3 import host, host_f32
from sim3.widths import DOUBLE, SINGLE, WIDTHS

ODD = [0.0, -0.0, 1.0, -1.0, 5e-324, -1e-200, 1e-8, 0.57735, 0.57736, 3.0, -700.0, 710.0, -750.0, 1e200,
       float("inf"), float("-inf"), float("nan")]


HOSTS = {DOUBLE: host, SINGLE: host_f32}


def cases(width=DOUBLE):
    """The numbers of some cases, rounded to a width."""
    return [list(struct.unpack(f"<23{width.code}", packed([width.number(x).value for x in case], width)))
            for case in any_cases()]


def any_cases():
    """Tangent, pose, pose: ordinary numbers, turns about the place where the series end, and odd numbers."""
    source = random.Random(5)
    found = [[source.gauss(0, 1) for _ in range(23)] for _ in range(300)]
    found += [[source.gauss(0, 0.57735) for _ in range(23)] for _ in range(300)]
    found += [[source.choice(ODD) for _ in range(23)] for _ in range(300)]
    found += [[x] * 23 for x in ODD]
    return found


def of_python(case, width=DOUBLE):
    """The 31 numbers that host.c and host.rs write too."""
    host, tau, x, y = HOSTS[width], case[:7], case[7:15], case[15:]
    jl, jl_inv = host.rotation_jacobians(tau[:3])
    return [*host.tangent_values(tau), *jl, *jl_inv, host.up(x), host.down(x), host.ds(x, y)]


def compare(what, found, width):
    """Holds bytes of 31 numbers a case to Python's numbers of that case."""
    all_cases, size = cases(width), 31 * width.size
    same(len(found), size * len(all_cases), f"bytes of {what}, {width.word}s")
    for i, case in enumerate(all_cases):
        same(bits(found[size * i:size * (i + 1)], width), bits(packed(of_python(case, width), width), width),
             f"{what}, {width.word}s, case {i}: {case}")


def inputs(width):
    return b"".join(packed(case, width) for case in cases(width))


def python_and_c():
    for width in WIDTHS:
        with tempfile.TemporaryDirectory() as work:
            program, single = f"{work}/host", ["-DSINGLE"] if width is SINGLE else []
            run([compiler("cc", "CC"), "-std=c99", "-O2", "-Wall", "-Wextra", "-Werror", *single, "-Ibindings/c", "-o",
                 program,
                 "tests/bindings_lib/host.c", "-lm"], b"")
            compare("bindings/c", run([program], inputs(width)), width)


def python_and_rust():
    for width in WIDTHS:
        with tempfile.TemporaryDirectory() as work:
            compare("bindings/rust", run([rust_program("tests/bindings_lib/host.rs", work, width)], inputs(width)),
                    width)


def text(x):
    return floats.DOUBLE.text(floats.DOUBLE.to_bits(x))


def line_of(mark, numbers):
    """A line for tools/jobs, with frames behind each pose and behind EX's tangent."""
    words, every = [text(x) for x in numbers], {"EX": 7, "IN": 8, "MU": 8}.get(mark.upper())
    groups = [words[i:i + every] for i in range(0, len(words), every)] if every else [words]
    return " ".join([mark, *(" ".join([*group, "frames 3 3"] if every else group) for group in groups)])


def completed_records(mark, lines):
    """The numbers of the records that tools/jobs make makes of lines, those given and those filled in."""
    job = run(["tools/jobs", "make"], "".join(line_of(mark, line) + "\n" for line in lines).encode())
    layout = JOB[mark.encode()]
    same(len(job), layout.size * len(lines), f"bytes of {len(lines)} records {mark}")
    return [split_numbers(layout, job[at + 2:])[0] for at in range(0, len(job), layout.size)]


def check_completed(mark, lines, expected, width):
    """Holds what a record has behind the given numbers to what is expected."""
    mark = mark.lower() if width is SINGLE else mark
    for line, record, wanted in zip(lines, completed_records(mark, lines), expected):
        same(bits(record[width.size * len(line):], width), bits(packed(wanted, width), width), f"{mark} {line}")


def python_and_jobs():
    """The values, matrices, up and down that tools/jobs make computes are the binding's."""
    for width in WIDTHS:
        host, all_cases = HOSTS[width], cases(width)
        tangents, poses = [case[:7] for case in all_cases], [case[7:15] for case in all_cases]
        check_completed("EX", tangents, [host.tangent_values(tau) for tau in tangents], width)
        check_completed("PA", tangents, [of_python(case, width)[:28] for case in all_cases], width)
        check_completed("CO", [case[:2] for case in all_cases], [host.values(case[0], case[1]) for case in all_cases],
                        width)
        check_completed("IN", poses, [[host.down(x)] for x in poses], width)
        check_completed("MU", [case[7:] for case in all_cases], [[host.up(x)] for x in poses], width)


TESTS = [python_and_c, python_and_rust, python_and_jobs]
