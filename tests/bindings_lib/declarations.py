"""What the bindings declare of the C functions against include/sim3.h: names, arguments in order, and their types."""
import ctypes
import re

from .common import ROOT, same
from sim3 import raw
from sim3.widths import SINGLE, WIDTHS

TYPES = {"const double *": "in", "double *": "out", "size_t": "count", "double": "number",
         "*const f64": "in", "*mut f64": "out", "usize": "count", "f64": "number",
         "const float *": "singles in", "float *": "singles out", "float": "single",
         "*const f32": "singles in", "*mut f32": "singles out", "f32": "single",
         "const uint16_t *": "frames in", "uint16_t *": "frames out", "*const u16": "frames in",
         "*mut u16": "frames out",
         "uint64_t *": "whole out", "int64_t *": "signed out", "*mut u64": "whole out", "*mut i64": "signed out",
         "const uint64_t *": "whole in", "*const u64": "whole in", "uint16_t": "short", "u16": "short",
         "uint8_t *": "bytes out", "const uint8_t *": "bytes in", "*mut u8": "bytes out", "*const u8": "bytes in",
         "uint32_t": "word", "u32": "word"}
RUNNING = {(ctypes.c_double, raw.WRITTEN): "out", (ctypes.c_double, raw.READ): "in",
           (ctypes.c_double, raw.NUMBER): "number",
           (ctypes.c_uint16, raw.WRITTEN): "frames out", (ctypes.c_uint16, raw.READ): "frames in",
           (ctypes.c_uint16, raw.NUMBER): "short",
           (ctypes.c_uint8, raw.WRITTEN): "bytes out", (ctypes.c_uint8, raw.READ): "bytes in",
           (ctypes.c_uint32, raw.NUMBER): "word"}
WRITTEN = {ctypes.c_uint64: "whole out", ctypes.c_int64: "signed out", ctypes.c_double: "out"}
NOTHING = ("", "gives nothing")


def of_header():
    """Each function of the header: its arguments as (name, type), and in front of them `gives nothing` where it
    does."""
    text = (ROOT / "include/sim3.h").read_text()
    found = {}
    for gives, name, arguments in re.findall(r"^(uint32_t|void) sim3_(\w+)\(([^)]*)\);", text, re.M):
        words = [re.fullmatch(r"(.*?)(\w+)", " ".join(a.split())).groups() for a in arguments.split(",") if a != "void"]
        found[name] = [NOTHING] * (gives == "void") + [(argument, TYPES[kind.strip()]) for kind, argument in words]
    return found


def of_rust():
    found = {}
    for file in ("raw.rs", "raw_f32.rs"):
        text = (ROOT / "bindings/rust" / file).read_text()
        for name, arguments, gives in re.findall(r"^ +fn sim3_(\w+)\(([^)]*)\)( -> u32)?;", text, re.M):
            words = [a.split(":") for a in arguments.split(",") if a.strip()]
            found[name] = [NOTHING] * (not gives) + [(argument.strip(), TYPES[kind.strip()])
                                                     for argument, kind in words]
    return found


def at_width(arguments, width):
    """A function's arguments in numbers of a width."""
    if width is not SINGLE:
        return arguments
    singles = {"in": "singles in", "out": "singles out", "number": "single"}
    return [(argument, singles.get(kind, kind)) for argument, kind in arguments]


def of_python():
    """The table as it goes to ctypes, where a list written in place is an out."""
    found = {}
    for name, signature in raw.FUNCTIONS.items():
        arguments = []
        for argument, kind in signature.takes:
            place = "frames in" if kind == raw.FRAMES else "in" if signature.gives else "out"
            if kind == raw.NUMBER:
                arguments += [(argument, "number")]
            else:
                arguments += [(argument, place), (argument + "_n", "count")]
        arguments += [("out", "out"), ("out_n", "count")] if signature.gives else []
        arguments += [("out_frames", "frames out"), ("out_frames_n", "count")] if raw.FRAMES in signature.gives else []
        found.update({name + width.ending: at_width(arguments, width) for width in WIDTHS})
    found["root"] = [("z", "number")]
    for argument, (kind, _) in raw.ROOT_WRITES.items():
        found["root"] += [(argument, WRITTEN[kind]), (argument + "_n", "count")]
    near = [("sigma", "number"), ("z", "number")]
    for argument, (kind, _) in raw.NEAR_WRITES.items():
        near += [(argument, WRITTEN[kind]), (argument + "_n", "count")]
    found.update({"nearest_arm" + width.ending: at_width(near, width) for width in WIDTHS})
    for name, signature in raw.PATTERNS.items():
        found[name] = []
        for i, (argument, kind) in enumerate(signature, 1):
            found[name] += [(argument, WRITTEN[kind] if i == len(signature) else "whole in"),
                            (argument + "_n", "count")]
    others = {**{name: (ctypes.c_uint32, signature) for name, signature in raw.RUNNING.items()}, **raw.ENVIRONMENT}
    for name, (gives, signature) in others.items():
        found[name] = [NOTHING] * (gives is None)
        for argument, kind, use in signature:
            found[name] += [(argument, RUNNING[kind, use]),
                            *([] if use == raw.NUMBER else [(argument + "_n", "count")])]
    return found


def header_and_python():
    same(of_python(), of_header(), "the table of bindings/python/sim3/raw.py")


def header_and_rust():
    same(of_rust(), of_header(), "the declarations of bindings/rust/raw.rs")


def unsafe_in_one_file():
    """Each unsafe block has its reason on the line before, and there is none outside raw.rs and its twin: every other
    module forbids it."""
    for path in sorted((ROOT / "bindings/rust").glob("*.rs")):
        lines = path.read_text().splitlines()
        level = {"sim3": "deny", "raw": "allow", "raw_f32": "allow"}.get(path.stem, "forbid")
        assert any(line.startswith(f"#![{level}(unsafe_code)]") for line in lines), (
            f"{path.name} has no line #![{level}(unsafe_code)]")
        for number, line in enumerate(lines, 1):
            if re.search(r"\bunsafe\b", line.split("//")[0]):
                assert path.stem in ("raw", "raw_f32"), f"{path.name}:{number}: unsafe outside raw.rs and raw_f32.rs"
                assert "// SAFETY:" in lines[number - 2], f"{path.name}:{number}: unsafe without its reason"


TESTS = [header_and_python, header_and_rust, unsafe_in_one_file]
