"""How pip builds this package, by the standard library alone.

usage: python3 backend.py FOLDER     compiles the loops over arrays for this Python into the folder of the library, as
bindings/build wants them

A wheel holds the package and, beside its modules, the shared library: the one that the environment variable
SIM3_LIBRARY names, or the one that bindings/build makes in the source tree; and the loops over arrays, where a C
compiler and Python's headers are there.
"""
import base64
import hashlib
import os
import pathlib
import re
import shutil
import subprocess
import sys
import sysconfig
import tempfile
import zipfile

HERE = pathlib.Path(__file__).resolve().parent
LIBRARY = "libsim3.so"


def field(name):
    """A text of the project table of pyproject.toml."""
    return re.search(rf'^{name} = "(.*)"$', (HERE / "pyproject.toml").read_text(encoding="utf-8"), re.M)[1]


def library():
    """The shared library to be packed."""
    named, build = os.environ.get("SIM3_LIBRARY"), HERE.parent / "build"
    if named:
        return pathlib.Path(named)
    if not build.is_file():
        raise SystemExit(f"sim3: no {build}, which makes {LIBRARY}: install from the source tree, or name the library "
                         "by SIM3_LIBRARY")
    if subprocess.run([str(build)]).returncode:
        raise SystemExit(f"sim3: bindings/build made no {LIBRARY}; its message is above")
    return HERE.parent.parent / "target" / "bindings" / LIBRARY


def loops(folder, library):
    """Compiles the module of loops over arrays into a folder: its path, or None and a message if the compiler or
    Python's headers are missing. The module finds the library by its soname, which the package has loaded before."""
    include, cc = sysconfig.get_path("include"), os.environ.get("CC") or "cc"
    if not os.path.exists(os.path.join(include, "Python.h")) or not shutil.which(cc):
        print(f"sim3: no loops over arrays, since {cc!r} or the headers of Python in {include} are missing; all else "
              "is there", file=sys.stderr)
        return None
    module, top = os.path.join(folder, "rows" + sysconfig.get_config_var("EXT_SUFFIX")), HERE.parent.parent
    words = [cc, "-std=c99", "-O2", "-fPIC", "-shared", "-s", "-DNDEBUG", "-ffp-contract=off", f"-I{include}",
             f"-I{top}/include", f"-I{top}/bindings/c",
             "-o", module + ".new", str(HERE / "rows.c"), str(library), "-lm"]
    if subprocess.run(words).returncode:
        raise SystemExit(f"sim3: {cc} did not compile {HERE}/rows.c; its message is above")
    os.replace(module + ".new", module)
    return pathlib.Path(module)


def metadata():
    """The METADATA of a wheel, with the README."""
    fields = (("Metadata-Version", "2.1"), ("Name", field("name")), ("Version", field("version")),
              ("Summary", field("description")),
              ("License", re.search(r'^license = \{ text = "(.*)" \}$',
                                    (HERE / "pyproject.toml").read_text(encoding="utf-8"), re.M)[1]),
              ("Requires-Python", field("requires-python")), ("Description-Content-Type", "text/markdown"))
    return "".join(f"{key}: {text}\n"
                   for key, text in fields) + "\n" + (HERE / field("readme")).read_text(encoding="utf-8")


def files(tag, shared, compiled):
    """The files of a wheel: paths and bytes."""
    about = f"{field('name')}-{field('version')}.dist-info"
    for path in sorted([*HERE.glob("sim3/*.py"), HERE / "sim3/py.typed"]):
        yield f"sim3/{path.name}", path.read_bytes()
    yield f"sim3/{LIBRARY}", shared.read_bytes()
    if compiled:
        yield f"sim3/{compiled.name}", compiled.read_bytes()
    yield f"{about}/METADATA", metadata().encode()
    yield f"{about}/WHEEL", f"Wheel-Version: 1.0\nGenerator: sim3\nRoot-Is-Purelib: false\nTag: {tag}\n".encode()
    notice = HERE.parent.parent / "NOTICE"
    if notice.is_file():
        yield f"{about}/NOTICE", notice.read_bytes()


def record_line(path, data):
    """The line of a file in RECORD."""
    digest = base64.urlsafe_b64encode(hashlib.sha256(data).digest()).rstrip(b"=").decode()
    return f"{path},sha256={digest},{len(data)}\n"


def build_wheel(wheel_directory, config_settings=None, metadata_directory=None):
    """Called by pip: writes a wheel into a folder, and returns its name."""
    shared = library()
    with tempfile.TemporaryDirectory() as folder:
        return write_wheel(wheel_directory, shared, loops(folder, shared))


def write_wheel(wheel_directory, shared, compiled):
    """Writes a wheel, for one Python if it has the loops, else for any; returns its name."""
    python = f"cp{sys.version_info[0]}{sys.version_info[1]}"
    tag = (f"{python}-{python}-" if compiled else "py3-none-") + re.sub(r"[-.]", "_", sysconfig.get_platform())
    name, lines = f"{field('name')}-{field('version')}-{tag}.whl", ""
    with zipfile.ZipFile(os.path.join(wheel_directory, name), "w", zipfile.ZIP_DEFLATED) as wheel:
        for path, data in files(tag, shared, compiled):
            wheel.writestr(zipfile.ZipInfo(path), data)
            lines += record_line(path, data)
        record = f"{field('name')}-{field('version')}.dist-info/RECORD"
        wheel.writestr(zipfile.ZipInfo(record), lines + f"{record},,\n")
    return name


if __name__ == "__main__":
    loops(sys.argv[1], pathlib.Path(sys.argv[1], LIBRARY))
