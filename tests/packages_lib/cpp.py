"""C++: sim3.hpp by g++ and clang++ with all warnings as errors, with Eigen and without, and the example by what was
installed alone."""
import pathlib
import shutil

from .c import STRICT
from .common import LAST_LINE, ROOT, Skipped, folder, prefix, run, tool

EIGEN = pathlib.Path("/usr/include/eigen3")


def compilers():
    """The C++ compilers that are at hand."""
    found = [name for name in ("g++", "clang++") if shutil.which(name)] or [tool("c++", "CXX")]
    return found


def header():
    """The header alone, twice in one program, and with Eigen before it."""
    work = folder("hpp")
    (work / "one.cpp").write_text('#include "sim3.hpp"\n#include "sim3.hpp"\nsim3::Pose one() { return sim3::Pose{}; '
                                  '}\n')
    (work / "two.cpp").write_text('#include "sim3.hpp"\nsim3::Pose one();\nint main() { return '
                                  'sim3::inverse(one()).from; }\n')
    for compiler in compilers():
        for standard in ("c++17", "c++20"):
            run([compiler, f"-std={standard}", *STRICT, f"-I{prefix()}/include", "-o", "both", "one.cpp", "two.cpp",
                 prefix() / "lib/libsim3.a", "-lm"], work)
        run(["./both"], work)


def built_example(work, compiler, *flags):
    shutil.copy(ROOT / "examples/cpp/join.cpp", work)
    run([compiler, "-std=c++17", "-O2", *STRICT, *flags, f"-I{prefix()}/include", "-o", "join", "join.cpp",
         prefix() / "lib/libsim3.a", "-lm"], work)
    output = run(["./join"], work)
    assert LAST_LINE in output, output
    return output


def example():
    work = folder("cpp")
    for compiler in compilers():
        assert "Eigen" not in built_example(work, compiler)


def example_with_eigen():
    if not EIGEN.exists():
        raise Skipped(f"Eigen's headers are not in {EIGEN}")
    work = folder("eigen")
    for compiler in compilers():
        assert "by Eigen's 7 by 7" in built_example(work, compiler, "-isystem", str(EIGEN))


TESTS = [header, example, example_with_eigen]
