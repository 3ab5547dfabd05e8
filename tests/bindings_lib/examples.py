"""The examples run and find their answers right, and the snippets of README and docs/LIBRARY.md are theirs."""
import pathlib
import re
import subprocess
import tempfile
import textwrap

from .common import ROOT, compiler, run, same
from sim3.raw import library

SOURCES = {"c": "examples/c/join.c", "cpp": "examples/cpp/join.cpp", "python": "examples/python/join.py",
           "rust": "examples/rust/join.rs"}


# The refusals that every example shows, in words.
SHOWN = [r"refusal 1: z is .*below zero", r"refusal 2: e, the last number",
         r"refusal 5: .*(no multiple of 3|list of points or tangents has a wrong length)",
         r"refusal 8: z(,| is) ", r"refusal 9: (the frames do not meet|x starts from frame 11, and y goes to frame 1);"]
ALSO_SHOWN = {"c": [r"refusal 100: a list has a wrong length"],
              "python": [r"refusal 100: tau has 6 numbers; expected 7"],
              "rust": [r"refusal 5: out has 6 numbers where pts has 9"],
              "cpp": [r"refusal 10: the take", r"refusal 12: nothing was ever kept"]}


def runs(language):
    done = subprocess.run([ROOT / "examples" / language / "run"], stdout=subprocess.PIPE, stderr=subprocess.STDOUT,
                          text=True)
    assert done.returncode == 0, f"examples/{language}/run has exit status {done.returncode}:\n{done.stdout}"
    for part in (*SHOWN, *ALSO_SHOWN[language], "every answer is the one known by hand"):
        assert re.search(part, done.stdout), f"examples/{language}/run does not say {part!r}:\n{done.stdout}"


def c_example():
    compiler("cc", "CC")
    runs("c")


def python_example():
    library()  # which says what is missing
    runs("python")


def cpp_example():
    compiler("c++", "CXX")
    runs("cpp")


def page_example():
    """The opening of staves: the last run is refused by 9 and the joins hold; the stored picture is the one that is
    drawn, but for the digits of what rounding leaves."""
    library()  # which says what is missing
    with tempfile.TemporaryDirectory() as work:
        output = run([ROOT / "examples/page/page.py", f"{work}/page.svg"]).decode()
        drawn = pathlib.Path(work, "page.svg").read_text(encoding="utf-8")
    assert "refusal 9: the running pose starts from frame 2, and x goes to frame 3" in output, output
    gaps = [float(number) for number in re.findall(r"at most (\S+) mm", output)]
    assert len(gaps) == 3 and max(gaps) < 1e-12, output
    stored, made = (re.sub(r"at most \S+ mm and \S+ mm", "", text)
                    for text in ((ROOT / "examples/page/page.svg").read_text(encoding="utf-8"), drawn))
    same(made == stored, True, "the picture against examples/page/page.svg")
    same([drawn.count(f'stroke="{colour}"') > 60 for colour in ("#1b5e9e", "#c8443c", "#2f8f4e")], [True] * 3,
         "staff lines of each run")
    for part in ("before:", "after:", "refused by 9"):
        assert part in drawn, f"the picture does not say {part!r}"


def rust_example():
    compiler("rustc", None)
    compiler("cc", None)  # by which rustc links
    runs("rust")


def lines_of(text):
    return [line.strip() for line in textwrap.dedent(text).splitlines() if line.strip()]


def snippets():
    """Each block of C, C++, Python or Rust in README and docs/LIBRARY.md stands in the example of its language."""
    pages = "\n".join((ROOT / page).read_text() for page in ("README.md", "docs/LIBRARY.md"))
    found = re.findall(r"^```(c|cpp|python|rust)\n(.*?)^```", pages, re.M | re.S)
    assert {language for language, _ in found} == set(SOURCES), f"snippets of {[language for language, _ in found]}"
    for language, text in found:
        wanted, there = lines_of(text), lines_of((ROOT / SOURCES[language]).read_text())
        places = range(len(there) - len(wanted) + 1)
        assert any(there[i:i + len(wanted)] == wanted for i in places), f"not in {SOURCES[language]}:\n{text}"


TESTS = [c_example, cpp_example, page_example, python_example, rust_example, snippets]
