"""The C side of functions.py: the header of the wrappers, and replay.c's table, at either width."""
from functions import FUNCTIONS, WHOLE, WIDTHS
from wrappers import input_count, is_list, output_count

HEAD_COMMENT = "// Made by tests/calls/build from tests/calls/functions.py.\n"
WORD = 8  # the bytes of a whole number, at either width


def wrapper_name(f, width):
    """The name of a function's wrapper."""
    return f"call_{f.id}{width.ending}"


def prototype(f, width):
    c = width.c
    words = [f"const {c} x[{input_count(f)}]"] if input_count(f) else []
    words += [f"size_t {p.name}" for p in f.takes if p.kind in WHOLE]
    words += [f"const {c} *pts, size_t n", f"{c} *out, size_t room"] if is_list(f) else [f"{c} out[{output_count(f)}]"]
    return f"uint32_t {wrapper_name(f, width)}({', '.join(words)}); // {f.name}\n"


def header(width):
    """calls.h: what libcalls.a exports. Each function returns 0, or a refusal's number and leaves out as it was."""
    guard = f"CALLS{width.ending.upper()}_H"
    prototypes = "".join(prototype(f, width) for f in FUNCTIONS)
    return (f"{HEAD_COMMENT}#ifndef {guard}\n#define {guard}\n#include <stddef.h>\n#include <stdint.h>\n\n"
            f"{prototypes}\n#endif\n")


def record_layout(f, width):
    """Of a record behind its id: its pieces of numbers as (place in x, byte, how many), the bytes of its whole numbers,
    a list's length apart, and its length, a list's numbers apart."""
    at, count, pieces, whole = 0, 0, [], []
    for p in f.takes:
        if p.kind in WHOLE:
            whole.append(at)
        if p.kind in WHOLE or p.kind == "list":
            at += WORD
            continue
        wide = WIDTHS[p.kind]
        if pieces and not whole:
            pieces[-1] = (0, 0, count + wide)
        else:
            pieces.append((count, at, wide))
        at, count = at + wide * width.size, count + wide
    return pieces, whole, at


def runner(f, width):
    """The function that calls a wrapper on the bytes r of a record."""
    pieces, whole, _ = record_layout(f, width)
    lines = [f"number x[{input_count(f)}];"] if pieces else ["(void)r;"]
    lines += [f"memcpy(x + {place}, r + {at}, {count} * sizeof *x);" for place, at, count in pieces]
    words = ["x"] * bool(pieces) + [f"whole(r + {at})" for at in whole] + ["out"]
    return (f"static uint32_t run_{f.id}(const unsigned char *r, number *out) {{ {' '.join(lines)} return "
            f"{wrapper_name(f, width)}({', '.join(words)}); }}\n")


def row(f, width):
    calls = f".list = {wrapper_name(f, width)}" if is_list(f) else f".run = run_{f.id}"
    return (f"    [{f.id}] = {{.name = \"{f.name}\", .length = {record_layout(f, width)[2]}, .numbers = "
            f"{output_count(f)}, {calls}}},\n")


def table(width):
    """table.h: the functions by id, as replay.c reads them. A list's record ends, before its numbers, in its length."""
    runners = "".join(runner(f, width) for f in FUNCTIONS if not is_list(f))
    rows = "".join(row(f, width) for f in FUNCTIONS)
    return f"{HEAD_COMMENT}{runners}\nstatic const struct function functions[256] = {{\n{rows}}};\n"
