"""The wrapper crate's source: one exported function for each row of functions.py, and the helpers that go between
numbers and the port's types.

A function with dozens of locals is slow to prove, so that numbers are read and stored by small functions. Each asks
that its place is in bounds, and rt sees by itself that it is. All of it is written for doubles; width.py has it at f32.
"""
from functions import FUNCTIONS, WHOLE, WIDTHS
from width import DOUBLE, at_width

HEAD = """\
// Made by tests/calls/build from tests/calls/functions.py.
#![tactic(auto)]

ghost use Rattle.std.specs.Prelude.{◌+◌, ◌≤◌, length};

use arms::values::Values;
use jacobian::jac::Sim3Jac;
use linalg::matrix::Mat3;
use linalg::vector::Vec3;
use series::sim3::Coeffs4;
use series::sim3::Sim3Coeffs;
use sim3::sim3::Sim3;
use sim3::tangent::Sim3Tangent;
use so3::quat::{Quat, Renormalize};

fn code(n: u8) -> u32 { n as u32 }
"""

# What the functions of poses with frames want besides.
FRAMES = """
use frames::{Frames, Pose};

fn frame(n: usize) -> u16 { (n % 65536) as u16 }

fn between(from: usize, to: usize) -> Frames { Frames { from: frame(from), to: frame(to) } }

fn framed(sim3: Sim3<f64>, from: usize, to: usize) -> Pose<f64> { Pose { sim3, from: frame(from), to: frame(to) } }
"""

# The types of the port: the fields, with their kinds, in the order in which they are laid out.
TYPES = {
    "vec": ("Vec3", "x:num y:num z:num"),
    "quat": ("Quat", "w:num x:num y:num z:num"),
    "mat": ("Mat3", "c0:vec c1:vec c2:vec"),
    "pose": ("Sim3", "q:quat t:vec sigma:num"),
    "tangent": ("Sim3Tangent", "phi:vec rho:vec sigma:num"),
    "values": ("Values", "root:num sin_half:num cos_half:num sin:num e:num m:num e0:num m0:num up:num down:num"),
    "coeffs": ("Sim3Coeffs", "v0:num v1:num v2:num w0:num w1:num w2:num dv1:num dv2:num chi_delta:num"),
    "coeffs4": ("Coeffs4", "v0:num v1:num v2:num chi_delta:num"),
    "block": ("Sim3Jac", "a:mat b:mat c:mat f:vec e:num"),
}
ARRAYS = ("four", "seven", "square")


def fields(kind):
    """A type's fields as (name, kind, place)."""
    at, found = 0, []
    for word in TYPES[kind][1].split():
        name, field = word.split(":")
        found.append((name, field, at))
        at += WIDTHS[field]
    return found


def offset(at, n):
    return f"{at} + {n}" if n else str(at)


def read_expression(kind, at):
    """The expression for the value of a kind that stands in x from a place on."""
    return f"x[{at}]" if kind == "num" else f"{kind}_at(x, {at})"


def readers():
    """The functions that read a value from x: a type's by its fields, an array's number by number, the square's by its
    columns."""
    for kind, (name, _) in TYPES.items():
        row = ", ".join(f"{field}: {read_expression(k, offset('at', n))}" for field, k, n in fields(kind))
        yield reader(kind, f"{name}<f64>", f"{name} {{ {row} }}")
    for kind in ("four", "seven"):
        width = WIDTHS[kind]
        yield reader(kind, f"[f64; {width}]",
                     f"[{', '.join(read_expression('num', offset('at', n)) for n in range(width))}]")
    columns = "".join(f"let c{i} = {read_expression('seven', offset('at', 7 * i))}; " for i in range(7))
    puts = "".join(f"put_seven_49(&mut m, {7 * i}, c{i}); " for i in range(7))
    yield reader("square", "[f64; 49]", f"{columns}let mut m = [0.0; 49]; {puts}m")


def reader(kind, name, body):
    return (f"\nfn {kind}_at(x: &[f64], at: usize) -> {name}\n    requires {{ at + {WIDTHS[kind]} ≤ length x.now "
            f"}}\n{{ {body} }}\n")


def store_statement(kind, width, at, value):
    """The statement that stores a value of a kind in out, which has a width, from a place on."""
    if kind == "flag":
        return f"out[{at}] = ieee::pick({value}, 1.0, 0.0);"
    if kind == "byte":
        return f"out[{at}] = {value} as f64;"
    return f"out[{at}] = {value};" if kind == "num" else f"put_{kind}_{width}(out, {at}, {value});"


def writer(kind, width):
    """The function that stores a value of a kind in an array of a width."""
    if kind in TYPES:
        name = f"{TYPES[kind][0]}<f64>"
        rows = [store_statement(k, width, offset("at", n), f"v.{field}") for field, k, n in fields(kind)]
    else:
        name = f"[f64; {WIDTHS[kind]}]"
        rows = [store_statement("num", width, offset("at", n), f"v[{n}]") for n in range(WIDTHS[kind])]
    head = (f"\nfn put_{kind}_{width}(out: &mut [f64; {width}], at: usize, v: {name})\n    requires {{ at + "
            f"{WIDTHS[kind]} ≤ {width} }}\n")
    return head + "{\n" + "".join(f"    {row}\n" for row in rows) + "}\n"


def array_maker(kind):
    """The function that makes an array of a small value."""
    rows, numbers = [], []
    for field, k, _ in fields(kind):
        if k == "num":
            numbers.append(f"v.{field}")
        else:
            rows.append(f"    let {field} = v.{field};\n")
            numbers += [f"{field}.{name}" for name, _, _ in fields(k)]
    return (f"\nfn of_{kind}(v: {TYPES[kind][0]}<f64>) -> [f64; {WIDTHS[kind]}] {{\n{''.join(rows)}    "
            f"[{', '.join(numbers)}]\n}}\n")


def is_small(f):
    """Whether the result is one value that an array literal takes."""
    return len(f.gives) == 1 and f.gives[0].kind in TYPES and output_count(f) < 10


def array_makers():
    return [array_maker(kind) for kind in dict.fromkeys(f.gives[0].kind for f in FUNCTIONS if is_small(f))]


def nested_writers(kind, width):
    """The kinds whose putters a putter calls, itself last."""
    inner = [k for _, k, _ in fields(kind)] if kind in TYPES else []
    return [pair for k in inner if k != "num" for pair in nested_writers(k, width)] + [(kind, width)]


def writers():
    wanted = [("seven", 49)]
    for f in [f for f in FUNCTIONS if not is_small(f)]:
        wanted += [pair for p in f.gives if p.kind in TYPES for pair in nested_writers(p.kind, output_count(f))]
    return [writer(kind, width) for kind, width in dict.fromkeys(wanted)]


def input_count(f):
    """How many numbers go in, the list's apart."""
    return sum(WIDTHS[p.kind] for p in f.takes if p.kind in WIDTHS)


def output_count(f):
    """How many numbers come out, the list's apart."""
    return sum(WIDTHS.get(p.kind, 0) for p in f.gives)


def is_list(f):
    return f.gives[0].kind == "list"


def inputs(f):
    """The statements that make the arguments from x. A name that begins with _ is not read."""
    lines, at = [], 0
    for p in f.takes:
        if p.kind in WIDTHS:
            if not p.name.startswith("_"):
                lines.append(f"let {p.name} = {read_expression(p.kind, at)};")
            at += WIDTHS[p.kind]
    return lines


def outputs(f):
    """The statements that store the result r."""
    if f.gives[0].kind in ARRAYS:
        return ["*out = r;"]
    if is_small(f):
        return [f"*out = of_{f.gives[0].kind}(r);"]
    lines, at = [], 0
    for p in f.gives:
        lines.append(store_statement(p.kind, output_count(f), at, p.name))
        at += WIDTHS[p.kind]
    return lines


def signature(f):
    words = [f"x: &[f64; {input_count(f)}]"] if input_count(f) else []
    words += [f"{p.name}: usize" for p in f.takes if p.kind in WHOLE]
    words += ["pts: &[f64]", "out: &mut [f64]"] if is_list(f) else [f"out: &mut [f64; {output_count(f)}]"]
    return f"pub extern \"C\" fn call_{f.id}({', '.join(words)}) -> u32"


def body(f):
    if f.answer is None:
        return inputs(f) + [f"let r = {f.call};"] + outputs(f) + ["0"]
    lines = inputs(f) + [f"let answer = {f.call};", "match answer {"]
    if is_list(f):
        lines.append(f"    {f.answer}(()) => 0,")
    else:
        lines += [f"    {f.answer}(r) => {{"] + ["        " + line for line in outputs(f)] + ["        0", "    }"]
    return lines + ["    Err(n) => code(n.number()),", "}"]


def wrapper(f):
    lines = "".join(f"    {line}\n" for line in body(f))
    return f"\n// {f.name}\n#[unsafe(no_mangle)]\n{signature(f)} {{\n{lines}}}\n"


def source(width=DOUBLE):
    frames = [FRAMES] if any(p.kind == "frame" for f in FUNCTIONS for p in f.takes) else []
    return at_width("".join([HEAD, *frames, *readers(), *array_makers(), *writers(), *(wrapper(f) for f in FUNCTIONS)]),
                    width)
