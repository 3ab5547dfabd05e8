"""The Python package: the same numbers as the bare calls, arguments that it leaves unchanged, and its messages for
wrong input."""
import array
import ctypes
import os
import random
import shutil
import subprocess
import sys
import tempfile

import sim3
from .common import ROOT, bits, call_c, floats, packed, same
from sim3 import f32, host, host_f32, numbers, raw
from sim3.poses import numbers_of
from sim3.widths import DOUBLE, SINGLE, WIDTHS

# Of each width: the package's functions, and the host's.
MODULES, HOSTS = {DOUBLE: sim3, SINGLE: f32}, {DOUBLE: host, SINGLE: host_f32}
FRAME = 3  # the frame from which and to which every pose goes here; frames.py has others


# What an argument is where it is left out, by the host and the arguments that are there.
LEFT_OUT = {
    "values": lambda host, a: host.tangent_values(a["tau"]) if "tau" in a else host.values(a["sigma"], a["z"]),
    "jl": lambda host, a: host.rotation_jacobians(a["tau"][:3])[0],
    "jl_inv": lambda host, a: host.rotation_jacobians(a["tau"][:3])[1],
    "ds": lambda host, a: host.ds(numbers_of(a["x"]), numbers_of(a["y"])),
    "up": lambda host, a: host.up(numbers_of(a["x"])),
    "down": lambda host, a: host.down(numbers_of(a["y" if "y" in a else "x"])),
}


def gives_pose(name):
    """Whether the package's function gives a Pose, and takes its poses as such."""
    return raw.FRAMES in raw.FUNCTIONS[name].gives or name == "renormalize"


def arguments(name, source, width=DOUBLE):
    """Ordinary arguments by name, of the width's numbers."""
    found = {}
    for argument, kind in raw.FUNCTIONS[name].takes:
        if kind == raw.FRAMES:
            found.update({"from_": FRAME, "to": FRAME} if argument == "frames" else {})
            continue
        count = 12 if kind == raw.POINTS else 1 if kind == raw.NUMBER else raw.KINDS[kind][0]
        some = [width.number(source.uniform(0.1, 1.5)).value for _ in range(count)]
        pose = kind == "pose" and gives_pose(name)
        found[argument] = some[0] if kind == raw.NUMBER else sim3.Pose(some, FRAME, FRAME) if pose else some
    return found


def flat(answer, width):
    if isinstance(answer, sim3.Pose):
        return bits(answer.numbers.tobytes() + packed(answer[1:], width), width)
    parts = answer if isinstance(answer, tuple) else (answer,)
    return bits(b"".join(part.tobytes() for part in parts), width)


def bare_call(name, given, width):
    """The bits of the bare call's answer, frames as floats behind the numbers."""
    lists = [numbers_of(given[argument]) for argument, kind in raw.FUNCTIONS[name].takes if kind != raw.FRAMES]
    data = b"".join(packed(x if isinstance(x, list) else [x], width) for x in lists)
    status, out = call_c(name, data, [(FRAME, FRAME)] * 2, width)
    same(status, 0, f"sim3_{name}{width.ending}")
    return bits(out + (packed([FRAME, FRAME], width) if name == "renormalize" else b""), width)


def same_as_bare_calls():
    """At both widths: every argument given, and then those left out that the host computes."""
    source = random.Random(7)
    for width in WIDTHS:
        for name in raw.FUNCTIONS:
            function, what = getattr(MODULES[width], name), f"{width.package}.{name}"
            for _ in range(20):
                given = arguments(name, source, width)
                same(flat(function(**given), width), bare_call(name, given, width), what)
                partial = {argument: x for argument, x in given.items() if argument not in LEFT_OUT}
                full = {argument: LEFT_OUT[argument](HOSTS[width], given) if argument in LEFT_OUT else x
                        for argument, x in given.items()}
                same(flat(function(**partial), width), bare_call(name, full, width), f"{what} with the host's values")


def parts_of_answers():
    """An answer of several lists is cut where the C function's lists begin."""
    for name, signature in raw.FUNCTIONS.items():
        answer = getattr(sim3, name)(**arguments(name, random.Random(8)))
        if gives_pose(name):
            assert isinstance(answer, sim3.Pose) and isinstance(answer.numbers, array.array), (
                f"sim3.{name} answers {answer}")
            same((len(answer.numbers), answer.from_, answer.to), (8, FRAME, FRAME), f"sim3.{name}")
        elif len(signature.gives) > 1:
            same([len(part) for part in answer], [raw.KINDS[kind][0] for kind in signature.gives],
                 f"lists of sim3.{name}")
        else:
            assert isinstance(answer, array.array), f"sim3.{name} answers {type(answer)}"


def forms_of_a_list():
    """Lists, tuples and buffers give the same; odd places and read-only bytes too."""
    x, points = [1.0, 0.5, 0.25, 0.125, 1.0, 2.0, 3.0, 0.5], [float(i) for i in range(12)]
    expected = sim3.act_many(x, points)
    packed = array.array("d", points)
    shifted = bytearray(b"\0" + packed.tobytes())
    for what, form in [("tuple", tuple(points)), ("ints", [int(p) for p in points]), ("array", packed),
                       ("floats of C", array.array("f", points)),
                       ("view", memoryview(packed)), ("rows", memoryview(packed).cast("B").cast("d", [4, 3])),
                       ("read-only", memoryview(packed.tobytes()).cast("d")),
                       ("odd place", memoryview(shifted)[1:].cast("d")),
                       ("ctypes", floats(packed.tobytes()))]:
        same(sim3.act_many(x, form), expected, f"sim3.act_many of {what}")
    same(sim3.act_many(x, []), array.array("d"), "no points")
    same(sim3.act_many(sim3.Pose(x, 3, 7), points), expected, "sim3.act_many of a Pose")


def lists_of_singles():
    """At f32 a list or a buffer of doubles is rounded once, a buffer of singles goes as it is, and answers are arrays
    of singles."""
    x, points = [1.0, 0.5, 0.25, 0.125, 1.0, 2.0, 3.0, 0.5], [0.1 * i for i in range(12)]
    single = array.array("f", points)
    expected = f32.act_many(x, single)
    same(expected.typecode, "f", "type of the answer of sim3.f32.act_many")
    for what, form in [("list", points), ("doubles", array.array("d", points)),
                       ("read-only", memoryview(single.tobytes()).cast("f")),
                       ("ctypes", floats(single.tobytes(), SINGLE))]:
        same(f32.act_many(x, form), expected, f"sim3.f32.act_many of {what}")
    same(ctypes.addressof(numbers.ctypes_numbers("single", single, SINGLE)), single.buffer_info()[0],
         "address of an array of singles without a copy")
    fails(TypeError, ["sim3.f32.act_many: pts", "array('f')", "buffer of singles"], f32.act_many, x, "1")
    same(fails(sim3.Refusal, ["sim3.f32.scaled_pair: refusal 1", "sim3.f32.host.norm_sq"], f32.scaled_pair, 0,
               -1).number, 1, "number for z = -1 at f32")
    same(fails(sim3.Refusal, ["sim3.f32.exp: refusal 100", "tau has 6"], f32.exp, [0] * 6, 1, 2).number, 100,
         "number for a short tau at f32")
    poses = sim3.Pose(x, 3, 7), sim3.Pose(x, 5, 9)
    same(fails(sim3.Refusal, ["sim3.f32.mul: refusal 9"], f32.mul, *poses).number, 9, "number for frames apart at f32")


def in_array(x):
    """An argument with its list in an array."""
    if isinstance(x, sim3.Pose):
        return x._replace(numbers=array.array("d", x.numbers))
    return array.array("d", x) if isinstance(x, list) else x


def nothing_lent_is_changed():
    source = random.Random(9)
    for name in raw.FUNCTIONS:
        given = {a: in_array(x) for a, x in arguments(name, source).items()}
        before = {a: in_array(list(x)) if isinstance(x, array.array) else in_array(x) for a, x in given.items()}
        getattr(sim3, name)(**given)
        same(given, before, f"arguments after sim3.{name}")


def refused_lists_are_let_go():
    """Who catches a refusal can change the length of the list at once."""
    for name, argument, wrong in (("exp", "tau", [1.0] * 6), ("act_many", "pts", [1.0] * 7)):
        long = array.array("d", wrong)
        try:
            getattr(sim3, name)(**{**arguments(name, random.Random(4)), argument: long})
        except sim3.Refusal:
            long.append(1.0)
        same(len(long), len(wrong) + 1, f"length after a refusal of sim3.{name}")
    long = array.array("d", [1.0] * 8)
    try:
        sim3.mul(sim3.Pose(long, 1, 2), sim3.Pose(long, 3, 4))
    except sim3.Refusal:
        long.append(1.0)
    same(len(long), 9, "length after a refusal of sim3.mul")


def buffers_are_not_copied():
    long = array.array("d", bytes(8 * 65_535))
    same(ctypes.addressof(numbers.ctypes_numbers("long", long)), long.buffer_info()[0],
         "address of an array without a copy")


def fails(kind, parts, function, *given, **named):
    """A call that raises this kind of exception, whose text has these parts."""
    try:
        answer = function(*given, **named)
    except kind as error:
        for part in parts:
            assert part in str(error), f"no {part!r} in {error}"
        return error
    raise AssertionError(f"{function.__name__}{given}{named} answered {answer}"[:2000])


def with_list(good, argument, wrong):
    """The arguments with another list in one's place."""
    pose = good[argument]
    return {**good, argument: pose._replace(numbers=wrong) if isinstance(pose, sim3.Pose) else wrong}


def wrong_lists():
    """Each list of each function: a wrong length, none, a text, bytes, a number, a text among the numbers."""
    for name, signature in raw.FUNCTIONS.items():
        for argument, kind in signature.takes:
            if kind in (raw.NUMBER, raw.FRAMES):
                continue
            good, number = arguments(name, random.Random(3)), 5 if kind == raw.POINTS else 100
            function, where, right = getattr(sim3, name), f"sim3.{name}: ", numbers_of(good[argument])
            for wrong in ([*right, 1.0], right[1:], *([[]] if number == 100 else [[0] * 65_539])):
                found = fails(sim3.Refusal, [where, f"refusal {number}", argument + " has"], function,
                              **with_list(good, argument, wrong))
                same(found.number, number, f"number of {found}")
            for wrong in ("1234567", b"12345678" * 8, 7, {1: 2}, (x for x in right), [*right[1:], "1"], [right],
                          memoryview(array.array("d", right * 2))[::2] if number == 100
                          else memoryview(array.array("d", right)).cast("B").cast("d", [3, 4])):
                fails(TypeError, [where, argument, "expected"], function, **with_list(good, argument, wrong))
            fails(OverflowError, [where, argument], function, **with_list(good, argument, [10 ** 400, *right[1:]]))
            if argument not in LEFT_OUT:
                fails(TypeError, [where, argument, "NoneType"], function, **with_list(good, argument, None))


def wrong_poses():
    """A pose without frames where frames are read, and what is no frame; renormalize reads none."""
    for name in filter(gives_pose, raw.FUNCTIONS):
        good, function = arguments(name, random.Random(3)), getattr(sim3, name)
        poses = {argument: x for argument, x in good.items() if isinstance(x, sim3.Pose)}
        for argument, pose in poses.items():
            for wrong in (pose.numbers, tuple(pose), None, 7):
                fails(TypeError, [f"sim3.{name}: {argument} is {type(wrong).__name__}", "expected a sim3.Pose"],
                      function, **{**good, argument: wrong})
        for place in ("from_", "to"):
            if name == "exp":
                wrong_frames(f"sim3.exp: {place}", lambda x: function(**{**good, place: x}))
            for argument, pose in poses.items() if name != "renormalize" else ():
                wrong_frames(f"sim3.{name}: {argument}.{place}",
                             lambda x: function(**{**good, argument: pose._replace(**{place: x})}))


def wrong_frames(where, call):
    for wrong in ("3", 3.0, None, [3]):
        fails(TypeError, [f"{where} is {type(wrong).__name__}", "whole number from 0 to 65,535"], call, wrong)
    for wrong in (-1, 65_536, 10 ** 30):
        fails(OverflowError, [f"{where} is {wrong:,}", "whole number from 0 to 65,535"], call, wrong)


def wrong_numbers():
    for name, signature in raw.FUNCTIONS.items():
        for argument in [a for a, kind in signature.takes if kind == raw.NUMBER]:
            good = arguments(name, random.Random(3))
            for wrong in ("1", [1.0], b"1", *([] if argument in LEFT_OUT else [None])):
                fails(TypeError, [f"sim3.{name}: {argument}", "expected a number"], getattr(sim3, name),
                      **{**good, argument: wrong})


def refusals_in_words():
    same(fails(sim3.Refusal, ["z is -1.0", "squared angle"], sim3.scaled_pair, 0, -1).number, 1, "number for z = -1")
    same(fails(sim3.Refusal, ["e, the last number of j, is -0.0", "no inverse"], sim3.block_inverse,
               [1] * 30 + [-0.0]).number, 2, "number for e = -0")
    assert issubclass(sim3.Refusal, ValueError), "a refusal is a ValueError"


def loaded_from():
    """The C library's own file, a shared library without these functions."""
    with open("/proc/self/maps") as maps:
        return next(line.split()[-1] for line in maps if "/libc.so" in line or "/libc-" in line)


def other_library():
    """A library that is missing, no library, or another one, is said with what to do."""
    code = "import sys; sys.path.insert(0, 'bindings/python'); import sim3; sim3.renormalize(sim3.Pose([1] * 8, 0, 0))"
    for path, what in (("/no/such/library.so", "no shared library"), ("README.md", "invalid ELF"),
                       (loaded_from(), "undefined symbol")):
        done = subprocess.run([sys.executable, "-B", "-c", code], cwd=ROOT, env={**os.environ, "SIM3_LIBRARY": path},
                              stderr=subprocess.PIPE, text=True)
        last = (done.stderr.strip().splitlines() or [""])[-1]
        for part in ("LibraryMissing", path, what, "bindings/build"):
            assert done.returncode and part in last, f"SIM3_LIBRARY={path}: {done.stderr or 'an answer'}"


def build_without_tools():
    """bindings/build names the tool that is missing, and leaves nothing half made."""
    with tempfile.TemporaryDirectory() as work:
        for folder in ("bindings", "crates", "target/staticlib", "bin"):
            os.makedirs(f"{work}/{folder}")
        shutil.copy(ROOT / "bindings/build", f"{work}/bindings/build")
        open(f"{work}/crates.txt", "w").close()
        for tool in ("ar", "bash", "dirname", "find", "head", "mkdir", "mv", "rm", "touch"):
            os.symlink(shutil.which(tool), f"{work}/bin/{tool}")
        build = [f"{work}/bin/bash", f"{work}/bindings/build"]
        environment = {"PATH": f"{work}/bin"}
        done = subprocess.run(build, env=environment, stderr=subprocess.PIPE, text=True)
        assert done.returncode == 2 and "'rt'" in done.stderr, f"without rt: {done}"
        for archive in ("libsim3_c.a", "libsim3_c_doubles.a", "libsim3_c_entries.a", "libsim3_c_entries_f32.a",
                        "libsim3_c_f32.a"):
            shutil.copy(ROOT / "target/staticlib" / archive, f"{work}/target/staticlib")
        done = subprocess.run(build, env=environment, stderr=subprocess.PIPE, text=True)
        assert done.returncode == 2 and "'cc'" in done.stderr, f"without cc: {done}"
        done = subprocess.run([*build, "archives"], env=environment, stderr=subprocess.PIPE, text=True)
        assert done.returncode == 2 and "'archives'" in done.stderr, f"with a wrong word: {done}"


TESTS = [same_as_bare_calls, parts_of_answers, forms_of_a_list, lists_of_singles, nothing_lent_is_changed,
         refused_lists_are_let_go, buffers_are_not_copied, wrong_lists,
         wrong_poses, wrong_numbers, refusals_in_words, other_library, build_without_tools]
