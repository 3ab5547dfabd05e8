"""An install in a folder of its own, moved away from where it was put; commands in clean folders; tools that may be
missing."""
import functools
import os
import pathlib
import shutil
import subprocess
import tempfile

ROOT = pathlib.Path(__file__).resolve().parent.parent.parent
INSTALL = ROOT / "bindings" / "install"
WORK = tempfile.TemporaryDirectory()
LAST_LINE = "every answer is the one known by hand"  # the last words of each example


class Skipped(Exception):
    """A test whose tools are not at hand; the text names the tool."""


def tool(name, variable=None):
    """A command's name, or Skipped."""
    name = (variable and os.environ.get(variable)) or name
    if not shutil.which(name):
        raise Skipped(f"'{name}' is not on PATH")
    return name


def same(found, expected, what):
    assert found == expected, f"{what}:\n  found    {found!r}\n  expected {expected!r}"


def run(words, cwd, **variables):
    """What a command writes; its exit status must be 0. Of the environment it has what finds tools, and no place of the
    source tree."""
    environment = {name: os.environ[name]
            for name in ("PATH", "HOME", "CARGO_HOME", "RUSTUP_HOME", "RUSTUP_TOOLCHAIN", "RT_JOBS", "CC")
            if name in os.environ}
    words = [str(word) for word in words]
    done = subprocess.run(words, cwd=cwd, env={**environment, **{name: str(text) for name, text in variables.items()}},
                          stdout=subprocess.PIPE, stderr=subprocess.STDOUT, text=True)
    assert done.returncode == 0, f"exit status {done.returncode} of {' '.join(words)}:\n{done.stdout[-3000:]}"
    return done.stdout


def folder(name):
    """A new folder."""
    made = pathlib.Path(WORK.name, name)
    made.mkdir(parents=True)
    return made


def tree(top):
    """Every path below a folder, and what stands there."""
    return {str(path.relative_to(top)): os.readlink(path) if path.is_symlink() else path.read_bytes() if path.is_file()
            else None for path in sorted(top.rglob("*"))}


@functools.lru_cache(maxsize=None)
def prefix():
    """The folder of an install, which was moved after it."""
    tool("cc", "CC")
    put, moved = pathlib.Path(WORK.name, "put"), pathlib.Path(WORK.name, "a-prefix")
    run([INSTALL, put], WORK.name)
    return pathlib.Path(shutil.move(str(put), str(moved)))


def clean_up():
    WORK.cleanup()
