"""Archives of wrapper crates, which are no part of the repository: each is proved and built in a repository of its own.

rt takes no file of Rattle outside the listed crates and follows no link, so that repository is a folder of its own
while rt works in it: the wrapper's source, copies of the crates that it rests on, and what tools/prove has rt make of
those in this repository. rt names what it has made by the texts that it was made from, so it finds it made there.
"""
import hashlib
import os
import pathlib
import shutil
import subprocess
import tempfile

TOP = pathlib.Path(__file__).resolve().parent.parent.parent
PARTS = ("src", "specs", "proofs")


class NotProved(Exception):
    """What rt or tools/prove said."""


def read_crates():
    """The lines of crates.txt: name -> the line, and name -> what it names."""
    found, uses = {}, {}
    for line in (TOP / "crates.txt").read_text(encoding="utf-8").splitlines():
        head, _, named = line.partition("#")[0].partition(":")
        if head.split():
            found[head.split()[0]], uses[head.split()[0]] = line, named.split()
    return found, uses


def dependencies(names):
    """The crates of these names and all of the repository that they rest on."""
    found, left, uses = set(), list(names), read_crates()[1]
    while left:
        name = left.pop()
        if name in uses and name not in found:
            found.add(name)
            left += uses[name]
    return sorted(found)


def digest(source, names):
    """A hash of all that an archive is made from: rt, the wrapper's source, and the crates below."""
    found = hashlib.sha256(subprocess.run(["rt", "version"], capture_output=True).stdout + source.encode())
    folders = [TOP / "crates" / crate / part for crate in dependencies(names) for part in PARTS]
    for file in sorted(f for folder in folders for f in folder.rglob("*") if f.is_file()):
        found.update(f"{file.relative_to(TOP)}\0".encode() + hashlib.sha256(file.read_bytes()).digest())
    return found.hexdigest()


def same_file(made, to):
    """A second name for a file of a library, which rt replaces and never writes into; a copy on another disk."""
    try:
        os.link(made, to)
    except OSError:
        shutil.copy2(made, to)


def copy_crates(repository, names):
    """Copies the crates of these names, with what rt has made of them."""
    for name in dependencies(names):
        crate, to = TOP / "crates" / name, repository / "crates" / name
        for part in PARTS:
            if (crate / part).is_dir():
                shutil.copytree(crate / part, to / part)
        if (crate / "out/rlib").is_dir():
            shutil.copytree(crate / "out/rlib", to / "out/rlib", copy_function=same_file)


def run(words, folder):
    done = subprocess.run(words, cwd=folder, stdin=subprocess.DEVNULL, stdout=subprocess.PIPE, stderr=subprocess.STDOUT,
                          text=True, errors="replace")
    if done.returncode:
        raise NotProved(done.stdout)


def is_current(source, names, to):
    """Whether the archive is there, and was made from all this as it now is."""
    stamp = to.with_suffix(".sum")
    return to.exists() and stamp.exists() and stamp.read_text() == digest(source, names)


def archive(name, names, source, to):
    """Proves the wrapper crate with this source, over the crates of these names, and builds its archive to a path."""
    stamp, now = to.with_suffix(".sum"), digest(source, names)
    to.parent.mkdir(parents=True, exist_ok=True)
    stamp.unlink(missing_ok=True)  # while the archive is not whole, nothing vouches for it
    run([TOP / "tools/prove", *names], TOP)
    listed = read_crates()[0]
    with tempfile.TemporaryDirectory(prefix="sim3-wrappers-") as folder:
        repository = pathlib.Path(folder).resolve()
        copy_crates(repository, names)
        text = "".join(f"{listed[crate]}\n" for crate in dependencies(names)) + f"{name} staticlib: {' '.join(names)}\n"
        (repository / "crates.txt").write_text(text, encoding="utf-8")
        crate = repository / "crates" / name
        (crate / "src").mkdir(parents=True)
        (crate / "src/lib.rt").write_text(source, encoding="utf-8")
        run(["rt", "lib"], crate)
        shutil.copyfile(crate / "out" / f"lib{name}.a", to)
    if digest(source, names) == now:
        stamp.write_text(now)
