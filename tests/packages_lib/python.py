"""Python: pip without network, and the installed package from another folder."""
import functools
import importlib.util
import os
import shutil
import sys
import sysconfig

from .common import LAST_LINE, ROOT, Skipped, folder, run, same, tool


@functools.lru_cache(maxsize=None)
def installed():
    """Where pip put the package."""
    if not importlib.util.find_spec("pip"):
        raise Skipped("'pip' is no module of this Python")
    tool("cc", "CC")
    place = folder("site")
    run([sys.executable, "-B", "-m", "pip", "install", "--quiet", "--no-index", "--no-build-isolation", "--no-deps",
         "--no-compile", "--disable-pip-version-check",
         "--target", place, ROOT / "bindings/python"], "/", PYTHONDONTWRITEBYTECODE=1)
    return place


def python(*words, cwd="/"):
    return run([sys.executable, "-B", *words], cwd, PYTHONPATH=installed())


def whole():
    """The package is all there, with its library and the mark of its hints, and nothing of it names the source tree but
    pip's own note of where it was from."""
    files = {path.name for path in (installed() / "sim3").iterdir()}
    loops = ({"rows" + sysconfig.get_config_var("EXT_SUFFIX")}
             if os.path.exists(os.path.join(sysconfig.get_path("include"), "Python.h")) else set())
    same(files - {path.name for path in (ROOT / "bindings/python/sim3").iterdir()}, {"libsim3.so"} | loops,
         "what the package has beside its sources")
    same({path.name for path in (ROOT / "bindings/python/sim3").iterdir() if path.name != "__pycache__"} - files, set(),
         "what it has not")
    assert "py.typed" in files, files
    for path in installed().rglob("*"):
        names_source = path.is_file() and path.name != "direct_url.json" and str(ROOT).encode() in path.read_bytes()
        assert not names_source, f"{path} names {ROOT}"


def from_any_folder():
    """The library that is loaded is the one beside the package."""
    output = python("-c", "import sim3; print(sim3.raw.library_path(), sim3.version(), sim3.__version__)",
                  cwd=folder("elsewhere"))
    version = (ROOT / "VERSION").read_text().strip()
    same(output.split(), [str((installed() / "sim3/libsim3.so").resolve()), version, version],
         "library and versions of the installed package")


def example():
    work = folder("python")
    shutil.copy(ROOT / "examples/python/join.py", work)
    assert LAST_LINE in python("join.py", cwd=work)


def arrays():
    """The installed loops over arrays, where numpy is there."""
    if not importlib.util.find_spec("numpy"):
        raise Skipped("numpy is not installed")
    output = python("-c", "import numpy, sim3; x = sim3.exp(numpy.zeros((3, 7)), 1, 2); print(x.numbers.shape, "
                        "x.frames.tolist(), x.refused.tolist())", cwd=folder("arrays"))
    same(output, "(3, 8) [[1, 2], [1, 2], [1, 2]] [0, 0, 0]\n", "what the installed package answers")


TESTS = [whole, from_any_folder, example, arrays]
