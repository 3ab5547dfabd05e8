"""One file holds the version: a bump in a copy of the tree moves every place that shows it."""
import os
import re
import shutil
import subprocess
import sys

from .common import ROOT, folder, run, same, tool

NOW = (ROOT / "VERSION").read_text().strip()
NEXT = "97.5.31"

# What ./sim3-job notes of a program that was proved, for the sources of a copy.
STAMP = """
sum=$(find -L crates.txt crates -type f -exec sha256sum {} + | LC_ALL=C sort | sha256sum)
printf '%s\\n' "$sum" "$(rt version 2>/dev/null)" "$(sha256sum <target/bin/sim3_job)" >target/sim3-job.stamp
"""


def tool_of(top, word):
    """The tool of a tree, with a word."""
    return [sys.executable, "-B", top / "tools/version", word]


def copy_tree():
    """A tree of what the libraries are made from, with the archives as they are, so that nothing is proved."""
    top = folder("bumped")
    for part in ("VERSION", "NOTICE", "include", "bindings", "examples", "tools", "share", "install", "sim3-job"):
        shutil.copytree(ROOT / part, top / part, ignore=shutil.ignore_patterns("__pycache__", "target", "Cargo.lock"),
                        symlinks=True) \
            if (ROOT / part).is_dir() else shutil.copy(ROOT / part, top / part)
    shutil.copytree(ROOT / "target/staticlib", top / "target/staticlib", copy_function=shutil.copy2)
    (top / "crates").mkdir()
    (top / "crates.txt").touch()
    os.utime(top / "crates.txt", (0, 0))
    (top / "target/bin").mkdir()
    shutil.copy2(ROOT / "target/bin/sim3_job", top / "target/bin")
    run(["bash", "-c", STAMP], top)
    return top


def versions_shown(top, prefix):
    """The version at every place that shows it."""
    header, wheel = (prefix / "include/sim3.h").read_text(), run([sys.executable, "-B", "-c",
                                                                  "import backend; print(backend.build_wheel('.'))"],
                                                                 top / "bindings/python")
    package = "import sim3; print(sim3.__version__, sim3.version())"
    return {
        "header": re.search(r'SIM3_VERSION "(.*)"', header)[1],
        "numbers of the header": ".".join(re.findall(r"SIM3_VERSION_(?:MAJOR|MINOR|PATCH) (\d+)", header)),
        "shared library": next((prefix / "lib").glob("libsim3.so.*.*.*")).name.split(".so.")[1],
        "CMake": re.search(r"PACKAGE_VERSION (\S+)\)",
                           (prefix / "lib/cmake/sim3/sim3-config-version.cmake").read_text())[1],
        "pkg-config": re.search("Version: (.*)", (prefix / "lib/pkgconfig/sim3.pc").read_text())[1],
        "Cargo.toml": re.search(r'^version = "(.*)"', (prefix / "share/sim3/rust/Cargo.toml").read_text(), re.M)[1],
        "wheel": wheel.strip().splitlines()[-1].split("-")[1],
        "package and library": run([sys.executable, "-B", "-c", package], "/",
                                   PYTHONPATH=top / "bindings/python").split(),
        "soname and symbols": re.findall(r"libsim3\.so\.(\d+)\b(?!\.)|SIM3_(\d+)",
                                         run([tool("readelf"), "-dV", prefix / "lib/libsim3.so"], "/"))[:2],
    }


def shown_everywhere():
    same(subprocess.run(tool_of(ROOT, "--check")).returncode, 0, "tools/version --check")


def bump():
    tool("cc", "CC")
    top, major = copy_tree(), NEXT.split(".")[0]
    run(tool_of(top, NEXT), "/")
    run(tool_of(top, "--check"), "/")
    run([top / "bindings/install", top / "prefix"], "/")
    found = versions_shown(top, top / "prefix")
    expected = {**dict.fromkeys(found, NEXT), "package and library": [NEXT, NEXT],
           "soname and symbols": [(major, ""), ("", major)]}
    same(found, expected, "the version after a bump")
    for path in top.rglob("*"):
        if path.is_file() and "target" not in path.parts and path.suffix != ".whl":
            assert not re.search(rf"(?<![\d.]){re.escape(NOW)}(?![\d.])".encode(),
                                 path.read_bytes()), f"{path.relative_to(top)} still shows {NOW}"
    (top / "VERSION").write_text("97.6.0\n")
    done = subprocess.run(tool_of(top, "--check"), stdout=subprocess.PIPE, text=True)
    same((done.returncode, done.stdout.count("does not show 97.6.0")), (1, 6),
         "tools/version --check after a bump by hand")


def wrong_versions():
    for wrong in ("1.2", "1.2.3.4", "v1.2.3", "01.2.3", "--chekc"):
        same(subprocess.run(tool_of(ROOT, wrong), stderr=subprocess.PIPE).returncode, 2, f"tools/version {wrong}")
    same((ROOT / "VERSION").read_text(), NOW + "\n", "the file VERSION")


TESTS = [shown_everywhere, bump, wrong_versions]
