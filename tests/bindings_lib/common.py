"""Where things stand, calls of the C functions on bytes, and comparing."""
import ctypes
import os
import pathlib
import shutil
import struct
import subprocess
import sys

ROOT = pathlib.Path(__file__).resolve().parent.parent.parent
sys.path[:0] = [str(ROOT / "bindings" / "python"), str(ROOT / "tools")]

from sim3 import raw
from sim3.widths import DOUBLE, SINGLE

# Of each width: struct's code of a number's bits, the canonical NaN, infinity, and a NaN that no answer has, for what
# must not be written.
BITS = {DOUBLE: ("Q", 0x7FF8000000000000, 0x7FF0000000000000, 0x7FF4_5EED_0BAD_CAFE),
        SINGLE: ("I", 0x7FC00000, 0x7F800000, 0x7FAD_CAFE)}
UNWRITTEN = (0xBAD0, 0xBAD1)  # frames that no test hands in


class Skipped(Exception):
    """A test whose tools are not at hand; the text says which."""


def compiler(default, variable):
    """A compiler's name, or Skipped."""
    name = (variable and os.environ.get(variable)) or default
    if not shutil.which(name):
        raise Skipped(f"'{name}' is not on PATH")
    return name


def same(found, expected, what):
    assert found == expected, f"{what}:\n  found    {found!r}\n  expected {expected!r}"


def run(words, data=b""):
    """What a command writes; its exit status must be 0."""
    done = subprocess.run(words, input=data, stdout=subprocess.PIPE, stderr=subprocess.PIPE, cwd=ROOT)
    same(done.returncode, 0, f"exit status of {words[0]} ({done.stderr.decode().strip()})")
    return done.stdout


def rust_program(source, work, width=DOUBLE):
    """A program over the Rust binding at a width, built in the folder `work`."""
    rust = [compiler("rustc", None), "--edition", "2021", "-O", "-D", "warnings"]
    compiler("cc", None)  # by which rustc links
    program = f"{work}/program"
    run([*rust, "--crate-type", "rlib", "-L", "target/bindings", "--out-dir", work, "bindings/rust/sim3.rs"])
    run([*rust, *(["--cfg", "single"] if width is SINGLE else []), "--check-cfg", "cfg(single)", "-L", work, "--extern",
         "sim3", "-o", program, source])
    return program


def packed(numbers, width=DOUBLE):
    return struct.pack(f"<{len(numbers)}{width.code}", *numbers)


def floats(data, width=DOUBLE):
    """A ctypes array with the numbers of some bytes."""
    return (width.number * (len(data) // width.size)).from_buffer_copy(data)


def sentinels(count, width=DOUBLE):
    """A list whose numbers no answer has."""
    code, *_, sentinel = BITS[width]
    return floats(struct.pack("<" + code, sentinel) * count, width)


def bits(data, width=DOUBLE):
    """The bits of numbers, with every NaN as the canonical one."""
    code, nan, infinity, _ = BITS[width]
    found = struct.unpack(f"<{len(data) // width.size}{code}", data)
    return [nan if word % (1 << 8 * width.size - 1) > infinity else word for word in found]


def output_size(kinds):
    """How many numbers there are in `out`."""
    return sum(raw.KINDS[kind][0] for kind in kinds if kind != raw.FRAMES)


def frame_list(frames):
    return (ctypes.c_uint16 * len(frames))(*frames)


def split_arguments(data, takes, frames=(), width=DOUBLE):
    """The arguments of a function from the bytes of their numbers, in a row, and from the frames of each pose, which
    are zeros, and so meet, where none are given; points take all that is left."""
    arguments, at, given = [], 0, iter(frames)
    for _, kind in takes:
        if kind == raw.FRAMES:
            arguments.append(frame_list(next(given, (0, 0))))
            continue
        if kind == raw.POINTS:
            count = (len(data) - at) // width.size
        else:
            count = 1 if kind == raw.NUMBER else raw.KINDS[kind][0]
        piece = floats(data[at:at + width.size * count], width)
        assert len(piece) == count, "too few numbers"
        arguments.append(piece[0] if kind == raw.NUMBER else piece)
        at += width.size * count
    same(at, len(data), "bytes that the arguments take")
    return arguments


def output_lists(name, points=0, width=DOUBLE):
    """The lists that a function writes, of the right lengths, with numbers that no answer has."""
    gives = raw.FUNCTIONS[name].gives
    return [sentinels(points if raw.POINTS in gives else output_size(gives), width),
            *([frame_list(UNWRITTEN)] if raw.FRAMES in gives else [])]


def written_bytes(written, width=DOUBLE):
    """The bytes of what was written, frames as floats behind the numbers."""
    return bytes(written[0]) + b"".join(packed(frames, width) for frames in written[1:])


def call_c(name, data, frames=(), width=DOUBLE):
    """What a C function returns for the numbers in some bytes and these frames, and what it wrote."""
    signature = raw.FUNCTIONS[name]
    arguments = split_arguments(data, signature.takes, frames, width)
    if not signature.gives:  # in place
        return raw.call(name, *arguments, width=width), bytes(arguments[0])
    written = output_lists(name, len(arguments[-1]) if raw.POINTS in signature.gives else 0, width)
    return raw.call(name, *arguments, *written, width=width), written_bytes(written, width)


def compare(what, name, data, refusal, answer, frames=(), width=DOUBLE):
    """Holds a C function's answer to a stored one: the refusal's number and nothing written, or all bits, with the
    frames as floats behind the numbers."""
    status, out = call_c(name, data, frames, width)
    what += f", sim3_{name}{width.ending}"
    same(status, refusal, f"{what}: status")
    if refusal:
        points = len(out) // width.size if raw.POINTS in raw.FUNCTIONS[name].gives else 0
        before = written_bytes(output_lists(name, points, width), width) if raw.FUNCTIONS[name].gives else data
        same(out, before, f"{what}: refused, but a number was written")
        return
    found, stored_bits = bits(out, width), bits(answer, width)
    same(len(found), len(stored_bits), f"{what}: count of numbers")
    for i, (x, y) in enumerate(zip(found, stored_bits)):
        assert x == y, f"{what}: number {i} is {x:0{2 * width.size}x}, stored is {y:0{2 * width.size}x}"
