"""C and C++: the install itself, its headers, its symbols, and an example that is linked with what was installed
alone."""
import re
import shutil
import subprocess

from .common import INSTALL, LAST_LINE, ROOT, WORK, folder, prefix, run, same, tool, tree

WARNINGS = ["-Wall", "-Wextra", "-Wpedantic", "-Wshadow", "-Wundef", "-Werror"]
# for the headers, whose warnings would be every caller's
STRICT = [*WARNINGS, "-Wconversion", "-Wdouble-promotion", "-Wcast-qual"]


def repeatable():
    """Installing twice leaves what installing once does; --uninstall leaves what was there before; nothing is written
    beside PREFIX."""
    tool("cc", "CC")
    work = folder("repeatable")
    (work / "own/lib").mkdir(parents=True)
    (work / "own/lib/other.txt").write_text("not ours")
    before = tree(work)
    run([INSTALL, "own"], work)
    once = tree(work)
    assert all(path == "own" or path.startswith("own/") for path in once), f"beside PREFIX: {list(once)}"
    run([INSTALL, work / "own"], "/")
    same(tree(work), once, "a second install")
    run([INSTALL, "--uninstall", "own"], work)
    same(tree(work), before, "what an uninstall leaves")


def names_no_source():
    """No installed file has the source tree's place in it, nor the place that it was first put to."""
    for path in prefix().rglob("*"):
        for place in (str(ROOT), f"{WORK.name}/put"):
            assert not path.is_file() or place.encode() not in path.read_bytes(), f"{path} names {place}"


def headers():
    """Each header by itself, in each language, with all warnings as errors."""
    work, cc = folder("headers"), tool("cc", "CC")
    for header in sorted((prefix() / "include").glob("*.h")):
        for language, standard in (("c", "c99"), ("c", "c11"), ("c", "c17")):
            (work / "one.c").write_text(f'#include "{header.name}"\nint main(void) {{ return 0; }}\n')
            run([cc, "-x", language, f"-std={standard}", *STRICT, "-Wstrict-prototypes", f"-I{prefix()}/include", "-c",
                 "-o", "one.o", "one.c"], work)


def headers_in_cpp():
    """Every header by C++11 and C++17; sim3.hpp, which is of C++17, by that alone."""
    work, compiler = folder("headers_in_cpp"), tool("c++", "CXX")
    for header in sorted((prefix() / "include").glob("*.h*")):
        for standard in ("c++17",) if header.name == "sim3.hpp" else ("c++11", "c++17"):
            (work / "one.cpp").write_text(f'#include "{header.name}"\nint main() {{ return 0; }}\n')
            run([compiler, f"-std={standard}", *STRICT, f"-I{prefix()}/include", "-c", "-o", "one.o", "one.cpp"], work)


def symbols():
    """The shared library exports the functions of the header and nothing else, and has its soname."""
    declared = set(re.findall(r"\b(sim3_\w+)\(",
                              re.sub(r"/\*.*?\*/", "", (prefix() / "include/sim3.h").read_text(), flags=re.S)))
    output = run([tool("nm"), "-D", "--defined-only", "--format=posix", prefix() / "lib/libsim3.so"], "/")
    # A is the version's own name
    found = {line.split()[0].split("@")[0] for line in output.splitlines() if line.split()[1] != "A"}
    same(found, declared, "what libsim3.so exports")
    version = (ROOT / "VERSION").read_text().strip()
    links = {path.name for path in (prefix() / "lib").glob("libsim3.so*")}
    same(links, {"libsim3.so", f"libsim3.so.{version.split('.')[0]}", f"libsim3.so.{version}"},
         "names of the shared library")
    output = run([tool("readelf"), "-d", prefix() / "lib/libsim3.so"], "/")
    assert f"soname: [libsim3.so.{version.split('.')[0]}]" in output, output


def built_example(work, flags, **variables):
    """The installed example, built in a folder with these flags and run."""
    shutil.copy(prefix() / "share/doc/sim3/join.c", work)
    run([tool("cc", "CC"), "-std=c99", *WARNINGS, "-o", "join", "join.c", *flags], work)
    assert LAST_LINE in run(["./join"], work, **variables)


def example_by_pkg_config():
    work = folder("shared")
    flags = run([tool("pkg-config"), "--cflags", "--libs", "sim3"], work,
                PKG_CONFIG_PATH=prefix() / "lib/pkgconfig").split()
    built_example(work, flags, LD_LIBRARY_PATH=prefix() / "lib")


def example_with_the_archive():
    built_example(folder("static"), [f"-I{prefix()}/include", prefix() / "lib/libsim3.a", "-lm"])


def example_in_cpp():
    """A few lines of C++, with the archive."""
    work, compiler = folder("example_in_cpp"), tool("c++", "CXX")
    (work / "mine.cpp").write_text('#include <cstdio>\n#include <cstring>\n#include "sim3.h"\n#include "sim3_host.h"\n'
                                   'int main() { return std::puts(sim3_version()) < 0 || std::strcmp(sim3_version(), '
                                   'SIM3_VERSION) != 0; }\n')
    run([compiler, "-std=c++17", *WARNINGS, f"-I{prefix()}/include", "-o", "mine", "mine.cpp",
         prefix() / "lib/libsim3.a", "-lm"], work)
    same(run(["./mine"], work), (ROOT / "VERSION").read_text(), "sim3_version")


def in_words():
    """What is wrong is said."""
    for words, part in ((["--uninstall", f"{WORK.name}/none"], "nothing was installed there"),
                        (["--wrong"], "'--wrong'"), (["a", "b"], "two folders")):
        done = subprocess.run([INSTALL, *words], stdout=subprocess.PIPE, stderr=subprocess.PIPE, text=True)
        assert done.returncode == 2 and part in done.stderr, f"bindings/install {words}: {done}"


TESTS = [repeatable, names_no_source, headers, headers_in_cpp, symbols, example_by_pkg_config, example_with_the_archive,
         example_in_cpp, in_words]
