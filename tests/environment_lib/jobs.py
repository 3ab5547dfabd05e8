"""The job program and its launcher where a preloaded library sets the environment before they begin."""
import os
import resource
import subprocess

from bindings_lib.common import ROOT, Skipped, compiler, same
from .common import PROVED, SETTINGS, TRAPS, WORK, setting_library

PROGRAM, LAUNCHER, INSTALL = ROOT / "target/bin/sim3_job", ROOT / "sim3-job", ROOT / "bindings/install"
JOB, ANSWERS = ((ROOT / "tests/runs" / name).read_bytes() for name in ("adversarial_1.in", "adversarial_1.out"))
MESSAGE = "the floating-point environment is not the proved one"
SIGFPE = 8


def run_job(command, csr):
    """The status of a job, what it answered and what it said, where MXCSR is csr at its start."""
    variables = {**os.environ, "LD_PRELOAD": setting_library(), "MXCSR": f"{csr:04x}"}
    done = subprocess.run([command], input=JOB, env=variables, stdout=subprocess.PIPE, stderr=subprocess.PIPE)
    return done.returncode, done.stdout, done.stderr.decode()


def settings(command, status):
    """The proved setting is answered; every other ends with this status, a message and no output."""
    same(run_job(command, PROVED), (0, ANSWERS, ""), f"{command} at {PROVED:04x}")
    for csr in SETTINGS[1:]:
        found, answers, messages = run_job(command, csr)
        assert (found, answers) == (status, b"") and MESSAGE in messages, (
            f"{command} at {csr:04x}: status {found}, {len(answers)} bytes answered, said {messages!r}")


def the_program():
    """It has no status of its own; it writes nothing, and so no ZZ."""
    settings(PROGRAM, 0)


def the_launcher():
    settings(LAUNCHER, 3)


def the_program_with_traps():
    """It ends by the signal before anything is written, or answers as ever."""
    resource.setrlimit(resource.RLIMIT_CORE, (0, resource.getrlimit(resource.RLIMIT_CORE)[1]))
    for csr in TRAPS:
        status, answers, messages = run_job(PROGRAM, csr)
        assert (status, answers, messages) == (0, ANSWERS, "") or (status == -SIGFPE and ANSWERS != answers), (
            f"{csr:04x}: status {status}, {len(answers)} bytes, said {messages!r}")


def the_installed_program():
    compiler("cc", "CC")
    prefix = f"{WORK.name}/prefix"
    done = subprocess.run([INSTALL, prefix], stdout=subprocess.PIPE, stderr=subprocess.STDOUT, text=True)
    same(done.returncode, 0, f"bindings/install: {done.stdout}")
    if not os.path.exists(f"{prefix}/bin/sim3-job"):
        raise Skipped("bindings/install puts no bin/sim3-job")
    settings(f"{prefix}/bin/sim3-job", 3)


TESTS = [the_program, the_launcher, the_program_with_traps, the_installed_program]
