"""From Rust: in a debug build, where every call asks, and in a release build; and that a guard stays in its thread."""
import subprocess

from bindings_lib.common import ROOT, compiler, run
from .common import HERE, WORK


def build(name, *flags):
    """The binding and the program over it, built with these flags."""
    rustc = [compiler("rustc", None), "--edition", "2021", "-O", "-D", "warnings", *flags]
    compiler("cc", None)  # by which rustc links
    run([*rustc, "--crate-type", "rlib", "-L", "target/bindings", "--out-dir", WORK.name, "bindings/rust/sim3.rs"])
    run([*rustc, "-L", WORK.name, "--extern", "sim3", "-o", f"{WORK.name}/{name}", HERE / "environment.rs"])
    return f"{WORK.name}/{name}"


def settings_in_a_debug_build():
    run([build("debug", "-C", "debug-assertions=on")])


def settings_in_a_release_build():
    run([build("release")])


def a_guard_stays_in_its_thread():
    """It is not Send: a program that hands it to another thread is none."""
    source = f"{WORK.name}/sent.rs"
    with open(source, "w", encoding="utf-8") as file:
        file.write("fn main() {\n    let guard = sim3::environment::enter();\n    std::thread::spawn(move || "
                   "drop(guard));\n}\n")
    words = [compiler("rustc", None), "--edition", "2021", "--emit", "metadata", "-L", WORK.name, "--extern", "sim3",
             "-o", f"{WORK.name}/sent.rmeta", source]
    done = subprocess.run(words, cwd=ROOT, stdout=subprocess.PIPE, stderr=subprocess.PIPE, text=True)
    assert done.returncode and "cannot be sent between threads safely" in done.stderr, (
        f"a guard was sent to another thread: {done}")


TESTS = [settings_in_a_debug_build, settings_in_a_release_build, a_guard_stays_in_its_thread]
