"""`jobs make`."""
import struct

from .common import ROOT, WORK, file, holds, jobs, records, same
from jobs_lib import host
from jobs_lib.floats import DOUBLE, SINGLE
from jobs_lib.layout import JOB


def scope_example():
    """The AC record of the scope, written in three ways."""
    expected = b"AC" + struct.pack("<8d2H4d", 1, 0, 0, 0, 1, 2, 3, 0, 0, 0, 1, 4, 5, 6)
    for line in ["AC 1 0 0 0 1 2 3 0 0 0 1 4 5 6", "  AC 1,0,0,0 , 1,2,3 ; 0 ; 0,0 ; 4,5,6 # no up\r",
                 "AC pose.q 1 0 0 0 pose.t 1 2 3; pose.sigma 0; frames 0 0; up 0x1p0; point 4 5 6;"]:
        same(jobs("make", data=f"# one record\n\n{line}\n".encode())[0], expected, line)


def frames_in_their_places():
    """From, then to, two bytes each, little endian: behind each pose's eight numbers, in EX last; by either name."""
    pose, other = (1, 0, 0, 0, 1, 2, 3, 0), (1, 0, 0, 0, 4, 5, 6, 0)
    for line, mark, packed in [
            ("EX 0 0 0 1 2 3 0 1 2 3 4 5 6 7 8 9 10 frames 3 7", b"EX",
             [*(0, 0, 0, 1, 2, 3, 0), *range(1, 11), (3, 7)]),
            ("AC 1 0 0 0 1 2 3 0 frames 258 65535 1 4 5 6", b"AC", [*pose, (258, 65535), 1, 4, 5, 6]),
            ("MU 1 0 0 0 1 2 3 0 frames 3 1 1 0 0 0 4 5 6 0 frames 7 3 1", b"MU", [*pose, (3, 1), *other, (7, 3), 1]),
            ("MU 1 0 0 0 1 2 3 0; left.frames 0 65535; 1 0 0 0 4 5 6 0 right.frames 256 0", b"MU",
             [*pose, (0, 65535), *other, (256, 0), 1]),
            ("IN 1 0 0 0 1 2 3 0; pose.frames 00001 2; 1", b"IN", [*pose, (1, 2), 1]),
            ("IN 1 0 0 0 1 2 3 0 1 2", b"IN", [*pose, (1, 2), 1])]:
        expected = b"".join(struct.pack("<2H", *x) if isinstance(x, tuple) else struct.pack("<d", x) for x in packed)
        same(jobs("make", data=line.encode())[0], mark + expected, line)


def missing_frames():
    """A line without frames is named as one of the older format, whichever groups it gives and names."""
    pose = "1 0 0 0 1 2 3 0"
    named = "pose.q 1 0 0 0; pose.t 1 2 3; pose.sigma 0"
    for line, missing in [("EX 1 2 3 4 5 6 7", "frames is"),
                          ("EX phi 1 2 3; rho 4 5 6; sigma 7; values 1 2 3 4 5 6 7 8 9 10", "frames is"),
                          (f"AC {pose} 4 5 6", "pose.frames is"), (f"AC {pose} 1 4 5 6", "pose.frames is"),
                          (f"AC {named}; point 4 5 6", "pose.frames is"), (f"IN {named}; down 1", "pose.frames is"),
                          (f"MU {pose} {pose}", "left.frames and right.frames are"),
                          (f"MU {pose}; {pose}; up 1", "left.frames and right.frames are"),
                          (f"IN {pose}", "pose.frames is"), (f"IN {pose} 1", "pose.frames is")]:
        messages = jobs("make", data=line.encode(), status=2)[1]
        holds(messages, f"(standard input):1: {line[:2]} has ",
              f" numbers, and {missing} missing (a job of the older format?): put from and to behind ",
              ", as frames 3 7; expected ", "nothing was written")
    for line, wrong in [(f"MU {pose} frames 1 2 {pose}", "MU has 18 numbers;"),
                        (f"AC {named}; frames 1; point 4 5 6", "';' after 9 numbers is inside pose.frames"),
                        (f"AC {named}; up 1; frames 1 2; point 4 5 6", "up after 8 numbers, where pose.frames begins"),
                        ("EX 1 2 3 4 5 6 frames 1 2 7", "frames after 6 numbers, where sigma begins"),
                        ("CO 1 2 frames 3 7", "CO has 5 numbers")]:
        holds(jobs("make", data=line.encode(), status=2)[1], wrong, "expected")
    for word in ("-1", "65536", "1.0", "1e3", "nan", "0x10", "three", "000001", "\u0661", ""):
        line = f"IN {pose} frames {word} 7 1" if word else f"IN {pose} frames 70000 nan"
        holds(jobs("make", data=line.encode(), status=2)[1], "is no frame; expected a whole number from 0 to 65535")


def what_is_left_out():
    """It is computed, in its place, and what is given is kept."""
    short = (b"PA 0.5 0 0 1 2 3 0.25\nMU 1 0 0 0 1 2 3 0.5 frames 3 1 1 0 0 0 1 2 3 7 frames 7 3\n"
             b"IN 1 0 0 0 1 2 3 0.5 3 1\nEX 0.5 0 0 1 2 3 0.25 frames 3 7\n")
    made = jobs("make", data=short)[0]
    whole = jobs("show", "--in", data=made)[0].decode()
    values = " ".join(map(repr, host.values(0.25, 0.25)))
    matrices = [" ".join(map(repr, m)) for m in host.rotation_jacobians([0.5, 0.0, 0.0])]
    holds(whole, f"values {values}; J {matrices[0]}; Jinv {matrices[1]}\n",
          f"right.frames 7 3; up {host.exponential(0.5)!r}\n", f"pose.frames 3 1; down {host.exponential(-0.5)!r}\n",
          f"sigma 0.25; values {values}; frames 3 7\n")
    for rest in (f"values {values}", f"J {matrices[0]}; Jinv {matrices[1]}"):
        line = f"PA 0.5 0 0 1 2 3 0.25; {rest}"
        same(jobs("make", data=line.encode())[0], made[:282], line)


def arms_like_coefficients():
    """An AR line is a CO line under another mark, with values given and left out."""
    for rest in ("sigma 0.5; z 3", "-0.0 bits:3fffb1ffbc2a9c8c", "nan inf 1 2 3 4 5 6 7 8 9 10"):
        made, co = (jobs("make", data=f"{mark} {rest}".encode())[0] for mark in ("AR", "CO"))
        same((made[:2], made[2:], len(made)), (b"AR", co[2:], 98), rest)


def stored_example():
    """examples/jobs.bin is made from jobs.txt; another math library may move what is computed."""
    made = jobs("make", ROOT / "examples" / "jobs.txt")[0]
    stored = (ROOT / "examples" / "jobs.bin").read_bytes()
    same(len(made), len(stored), "the length of examples/jobs.bin")
    texts = [jobs("show", "--in", data=data)[0].decode() for data in (made, stored)]
    for lines in zip(*(text.splitlines() for text in texts)):
        width = SINGLE if lines[0][:2].islower() else DOUBLE
        for old, new in zip(*(line.replace(";", " ").split() for line in lines)):
            if old != new:
                steps = width.ulps(width.read(old), width.read(new))
                assert steps is not None and steps <= 2, f"examples/jobs.bin has {new}, made is {old}"
    holds("\n" + texts[1], *(f"\n{layout.mark} " for layout in JOB.values()))


def singles():
    """The marks in small letters: 4-byte numbers, each rounded once, frames of two bytes, in the same places."""
    pose = (1, 0, 0, 0, 1, 2, 3, 0)
    for line, expected in [
            ("ac 1 0 0 0 1 2 3 0 frames 258 65535 1 4 5 6",
             b"ac" + struct.pack("<8f2H4f", *pose, 258, 65535, 1, 4, 5, 6)),
            ("ac pose.q 1 0 0 0; pose.t 1 2 3; pose.sigma 0; frames 0 0; point 0.1 0.1 0.1",
             b"ac" + struct.pack("<8f2H4f", *pose, 0, 0, 1, .1, .1, .1)),
            ("mu 1 0 0 0 1 2 3 0 frames 3 1 1 0 0 0 1 2 3 0 frames 7 3",
             b"mu" + struct.pack("<8f2H8f2Hf", *pose, 3, 1, *pose, 7, 3, 1)),
            ("in 1 0 0 0 1 2 3 100 frames 3 1",
             b"in" + struct.pack("<8f2Hf", *pose[:7], 100, 3, 1, 3.783505853677006e-44)),
            ("in 1 0 0 0 1 2 3 -100 frames 3 1", b"in" + struct.pack("<8f2Hf", *pose[:7], -100, 3, 1, float("inf"))),
            ("co bits:7f800001 nan:ffc00001 1 2 3 4 5 6 7 8 9 10",
             b"co" + struct.pack("<2I10f", 0x7F800001, 0xFFC00001, *range(1, 11))),
            ("co 1.00000005960464477539063 3.4028235677973366e38 1 2 3 4 5 6 7 8 9 10",
             b"co" + struct.pack("<2I10f", 0x3F800001, 0x7F7FFFFF, *range(1, 11)))]:
        same(jobs("make", data=line.encode())[0], expected, line)
    text = "ex 0.5 0 0 1 2 3 0.25 frames 3 7\npa 0.5 0 0 1 2 3 0.25\n"
    short = jobs("make", data=text.encode())[0]
    values, matrices = host.values(0.25, 0.25), host.rotation_jacobians([0.5, 0.0, 0.0])
    tangent = struct.pack("<7f", 0.5, 0, 0, 1, 2, 3, 0.25)
    same(short, b"ex" + tangent + struct.pack("<10f2H", *values, 3, 7) + b"pa" + tangent
         + struct.pack("<28f", *values, *matrices[0], *matrices[1]), text)


def bad_singles():
    """A bad line of singles is named as one of doubles is, in its own width."""
    for line, wrong, expected in [
            ("ex 1 2 3 4 5 6 7", "ex has 7 numbers, and frames is missing: put from and to behind sigma",
             "9 (phi 3; rho 3; sigma; frames 2), or 19"),
            ("ji 1", "ji has 1 number;", "31 (block.a 9"), ("co 1 1e39", "'1e39' is beyond the largest single", "inf"),
            ("co 1 bits:3ff0000000000000", "is not a number", "8 digits of bits (bits:3f800000)"),
            ("co 1 nan:3f800000", "nan:3f800000 is not a NaN", "bits:3f800000"),
            ("CO 1 bits:3f800000", "is not a number", "16 digits of bits (bits:3ff0000000000000)"),
            ("mu 1 0 0 0 1 2 3 0 frames 1 70000 1 0 0 0 1 2 3 0 frames 1 2", "'70000' is no frame",
             "a whole number from 0 to 65535"),
            ("Ex 1 2 3", "unknown mark 'Ex'", "EX CO PA AC MU IN JI AR ex co pa ac mu in ji"),
            ("ar 1 2", "unknown mark 'ar'", "EX CO PA AC MU IN JI AR ex co pa ac mu in ji")]:
        out, messages = jobs("make", data=f"in 1 0 0 0 1 2 3 0 3 7\n{line}\n".encode(), status=2)
        same(out, b"", f"output for {line!r}")
        holds(messages, "(standard input):2: ", wrong, "expected", expected, "nothing was written")
        assert "older format" not in messages, messages


def bad_lines():
    """Every bad line is named with its place, what is wrong and what is expected."""
    for line, wrong, expected in [
            ("JI 1", "JI has 1 number;", "31 (block.a 9"),
            ("EX 1 2 3", "EX has 3 numbers", "9 (phi 3; rho 3; sigma; frames 2), or 19"),
            ("AC 1 0 0 0 1 2 3 0 3 7 1 4 5 six", "'six' is not a number", "a decimal"),
            ("ZZ 1 2 3", "unknown mark 'ZZ'", "EX CO PA AC MU IN JI AR"),
            ("AR 1", "AR has 1 number;", "2 (sigma; z), or 12 (sigma; z; values 10)"),
            ("EX 1 2; 3 4 5 6 7 8 9", "';' after 2 numbers is inside phi", "phi 3; rho 3"),
            ("EX rho 1 2 3 phi 4 5 6 sigma 7 8 9", "rho after 0 numbers, where phi begins", "phi 3"),
            ("EX phi 1 2 3; rho 4 5; sigma 7; frames 8 9", "';' after 5 numbers is inside rho", "takes 3"),
            ("CO 1 2 values", "values after 2 numbers, where no group begins", "12"),
            ("CO 1 1e999", "'1e999' is beyond the largest double", "inf"),
            ("IN 1 0 0 0 1 2 3 \u22121 3 7", "is not a number", "a decimal"),
            ("bytes 5 51", "'5' is not a byte", "two hexadecimal digits")]:
        out, messages = jobs("make", data=f"IN 1 0 0 0 1 2 3 0 3 7\n{line}\n".encode(), status=2)
        same(out, b"", f"output for {line!r}")
        holds(messages, "(standard input):2: ", wrong, "expected", expected, "nothing was written")


def bad_files():
    many = file("many.txt", b"EX\n" * 50)
    messages = jobs("make", many, status=2)[1]
    holds(messages, f"{many}:1: ", f"{many}:20: ", "stopped after 20 bad lines")
    same(messages.count("EX has"), 20, "messages")
    job = file("job", records(JOB, 1, 1))
    holds(jobs("make", job, status=2)[1], "job:1: a zero byte", "expected text")
    holds(jobs("make", WORK.name + "/none", status=2)[1], "cannot read", "No such file")
    holds(jobs("make", WORK.name, status=2)[1], "cannot read", "Is a directory")
    same(jobs("make", data=b"")[0], b"", "the job file of nothing")


TESTS = [scope_example, frames_in_their_places, missing_frames, what_is_left_out, arms_like_coefficients,
         stored_example, singles, bad_singles, bad_lines,
         bad_files]
