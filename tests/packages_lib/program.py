"""The installed program and its tool: as another user, from an empty folder, with the source tree out of reach; man
pages, completion, CMake, DESTDIR."""
import functools
import os
import pathlib
import re
import shutil
import subprocess
import sys

from .common import INSTALL, LAST_LINE, ROOT, Skipped, WORK, folder, prefix, run, same, tool, tree

NOBODY = 65534


@functools.lru_cache(maxsize=None)
def away():
    """The words before a command that run it as another user with an empty folder in the source tree's place; or
    Skipped."""
    if os.geteuid() != 0:
        raise Skipped("another user's rights can be had by root alone")
    for name in ("unshare", "setpriv", "mount"):
        tool(name)
    empty = folder("empty")
    pathlib.Path(WORK.name).chmod(0o755)
    script = 'mount --bind "$0" "$1" && shift && exec setpriv --reuid=65534 --regid=65534 --clear-groups "$@"'
    words = ["unshare", "--mount", "sh", "-c", script, str(empty), str(ROOT)]
    if subprocess.run([*words, "true"], stdout=subprocess.DEVNULL, stderr=subprocess.DEVNULL).returncode:
        raise Skipped("'unshare --mount' is not permitted here")
    return words


def as_nobody(command, data=b"", status=0):
    """Standard output and messages of a shell's command of another user, in an empty folder of its own, with the
    install first on PATH."""
    place = pathlib.Path(WORK.name, "nobody")
    if not place.exists():
        place.mkdir()
        os.chown(place, NOBODY, NOBODY)
    python = shutil.which("python3", path="/usr/bin:/bin")
    if not python:
        raise Skipped("no 'python3' that every user can run is in /usr/bin")
    variables = {"PATH": f"{prefix()}/bin:/usr/bin:/bin", "HOME": str(place), "LC_ALL": "C.UTF-8"}
    done = subprocess.run([*away(), "sh", "-c", command], cwd=place, env=variables, input=data, stdout=subprocess.PIPE,
                          stderr=subprocess.PIPE)
    same(done.returncode, status, f"exit status of {command} ({done.stderr.decode()[-800:]})")
    return done.stdout, done.stderr.decode()


def out_of_reach():
    """The test's own ground: the source tree is an empty folder there, and the user is another."""
    same(as_nobody(f"ls -A {ROOT}; id -u")[0].decode().split(), [str(NOBODY)],
         "what another user sees of the source tree")


def answers():
    """sim3-job and the tool's run give the stored answers; the exit status is the program's."""
    job, expected = (ROOT / "examples/jobs.bin").read_bytes(), (ROOT / "examples/answers.bin").read_bytes()
    same(as_nobody("sim3-job", job)[0] == expected, True, "the answers of sim3-job")
    same(as_nobody("cat > jobs.bin; sim3-jobs run jobs.bin", job)[0] == expected, True, "the answers of sim3-jobs run")
    same(as_nobody("sim3-job --help")[0].decode().splitlines()[-1],
         "Job files are made, shown and compared by sim3-jobs; sim3-job(5) has the bytes of every record.", "the help")
    same("it takes no argument" in as_nobody("sim3-job x", status=2)[1], True, "a wrong word")
    same("could not be written" in as_nobody("sim3-job > /dev/full", job, status=1)[1], True, "a full disk")
    as_nobody("sim3-job < .", status=1)


def tool_at_work():
    """The commands of the tool, from text to a difference, and a job in parts; they have their own names in what they
    say."""
    text = (ROOT / "examples/jobs.txt").read_bytes()
    out = as_nobody("cat > jobs.txt; sim3-jobs make jobs.txt > jobs.bin && sim3-jobs run jobs.bin > answers.bin && "
                    "sim3-jobs show answers.bin && sim3-jobs diff answers.bin answers.bin", text)[0]
    assert b"\nequal: " in out and b"ZZ begun" in out, out[-500:]
    out = as_nobody('sim3-jobs split --records 5 jobs.bin parts && for f in parts/*.in; do sim3-job < $f > '
                    '${f%.in}.out || exit 1; done; sim3-jobs merge parts | cmp - answers.bin && echo merged; '
                    "sim3-jobs near --within 1000 jobs.bin | tail -n 1; rm -r parts")[0].decode()
    assert "merged" in out and re.search(r"record", out), out
    for words in ("--help", "show --help", "run --help"):
        message = as_nobody(f"sim3-jobs {words}")[0].decode()
        assert "tools/jobs" not in message and "./sim3-job" not in message, message
    same(as_nobody("find . -name __pycache__; find . -newer jobs.txt -name '*.pyc'")[0], b"",
         "what was written besides")


def library_of_the_tool():
    """The installed tool finds the library by which large files go faster."""
    modules = prefix() / "share/sim3/tools"
    output = as_nobody(f"python3 -B -c \"import sys; sys.path.insert(0, '{modules}'); from jobs_lib import bulk; "
                     "print(bulk.functions() is not None, bulk.PATH)\"")[0].decode().split()
    same(output, ["True", str(prefix() / "lib/sim3/libsim3_bulk.so")], "the library of the installed tool")


def nothing_written():
    """Using an install leaves it as it is."""
    before = tree(prefix())
    tool_at_work()
    same(tree(prefix()) == before, True, "the install after use")


def manual_pages():
    """man finds each page, and groff has nothing to say about it; they are as tools/manual writes them."""
    same(subprocess.run([sys.executable, "-B", ROOT / "tools/manual", "--check"]).returncode, 0, "tools/manual --check")
    tool("man")
    for section, name, part in (("1", "sim3-job", "EXIT STATUS"), ("1", "sim3-jobs", "merge"),
                                ("5", "sim3-job", "REFUSALS")):
        done = subprocess.run(["man", "--warnings", section, name],
                              env={**os.environ, "MANPATH": f"{prefix()}/share/man", "MANWIDTH": "120",
                                   "LC_ALL": "C.UTF-8"},
                              stdout=subprocess.PIPE, stderr=subprocess.PIPE, text=True)
        same((done.returncode, done.stderr), (0, ""), f"man {section} {name}")
        assert part in done.stdout, f"man {section} {name} has no {part!r}"
        assert str(ROOT) not in done.stdout


def completion():
    """What bash offers behind sim3-jobs."""
    tool("bash")
    script = 'source "$0"; COMP_WORDS=("$@"); COMP_CWORD=$(($# - 1)); _sim3_jobs; echo "${COMPREPLY[@]}"'
    path = prefix() / "share/bash-completion/completions/sim3-jobs"
    for words, expected in ((["sim3-jobs", "sh"], "show sheets"), (["sim3-jobs", "merg"], "merge"),
                       (["sim3-jobs", "diff", "--h"], "--help --html"), (["sim3-jobs", "show", "f"], "")):
        same(run(["bash", "-c", script, path, *words], "/").strip(), expected, f"what is offered behind {words}")


def cmake():
    """find_package and the target, for C with the shared library and with the archive, and for C++; a later first
    number is not found."""
    tool("cc", "CC")
    work = folder("cmake")
    shutil.copy(prefix() / "share/doc/sim3/join.c", work)
    (work / "two.cpp").write_text('#include "sim3.hpp"\nint main() { return sim3::mul(sim3::Pose{}, '
                                  'sim3::Pose{}).numbers[0] == 1 ? 0 : 1; }\n')
    (work / "CMakeLists.txt").write_text("cmake_minimum_required(VERSION 3.16)\nproject(mine C CXX)\n"
                                         "set(CMAKE_CXX_STANDARD 17)\nfind_package(sim3 1.0 REQUIRED CONFIG)\n"
                                         "add_executable(join join.c)\ntarget_link_libraries(join sim3::sim3)\n"
                                         "add_executable(join_static join.c)\n"
                                         "target_link_libraries(join_static sim3::sim3_static)\nadd_executable(two "
                                         "two.cpp)\ntarget_link_libraries(two sim3::sim3)\n"
                                         'find_package(sim3 97 QUIET CONFIG)\nif(sim3_FOUND)\n  message(FATAL_ERROR '
                                         '"found version 97")\nendif()\n')
    run([tool("cmake"), "-S", ".", "-B", "built", f"-DCMAKE_PREFIX_PATH={prefix()}"], work)
    run(["cmake", "--build", "built"], work)
    for name in ("join", "join_static"):
        assert LAST_LINE in run([f"built/{name}"], work)
    run(["built/two"], work)


def destdir():
    """DESTDIR and PREFIX put the same files under $DESTDIR$PREFIX, and take them away; the top folder's install is the
    same command."""
    work = folder("packaged")
    run([ROOT / "install"], work, DESTDIR=work / "root", PREFIX="/usr/local")
    same(tree(work / "root/usr/local") == tree(prefix()), True, "what DESTDIR holds")
    same([path.name for path in work.iterdir()], ["root"], "what stands beside it")
    run([INSTALL, "--uninstall", "/usr/local"], work, DESTDIR=work / "root")
    same([str(path) for path in (work / "root/usr/local").rglob("*")], [], "what an uninstall leaves")


TESTS = [out_of_reach, answers, tool_at_work, library_of_the_tool, nothing_written, manual_pages, completion, cmake,
         destdir]
