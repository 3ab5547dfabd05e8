"""Instructions of a record of each mark: the job program on many records of it, less the program on none."""
import pathlib
import subprocess
import tempfile

from counts_lib.callgrind import total_instructions

top = pathlib.Path(__file__).resolve().parent.parent.parent
PROGRAM = top / "target/bin/sim3_job"
RECORDS = 1000  # of each mark
# An angle and a log scale of each arm, at both widths.
ARMS = [(0.004, 0.002), (0.1, 0.1), (0.3, 0.2), (0.9, 0.5), (1.7, 1.1)]


def tangents(mark, ending=""):
    return [f"{mark} phi {0.6 * angle} 0 {0.8 * angle}; rho 1 -2 0.5; sigma {sigma}{ending}" for angle, sigma in ARMS]


def squares(mark):
    return [f"{mark} sigma {sigma}; z {angle * angle}" for angle, sigma in ARMS]


def pose(name):
    return f"{name}.q 0.8 0 0.6 0; {name}.t 1 2 3; {name}.sigma 0.25"


BLOCK = ("block.a 1 0.1 0 0 1 0.2 0.1 0 1; block.b 0 3 -2 -3 0 1 2 -1 0; block.c 2 0 0.1 0.1 2 0 0 0.2 2; "
         "block.f -1 -2 -3; block.e 1.5")
# The records of each mark of both widths, as tools/jobs make takes them; they are repeated.
BOTH = {
    "EX": tangents("EX", "; frames 7 3"), "CO": squares("CO"), "PA": tangents("PA"),
    "AC": [f"AC {pose('pose')}; frames 3 1; point 4 5 6"],
    "MU": [f"MU {pose('left')}; frames 3 1; {pose('right')}; frames 7 3"],
    "IN": [f"IN {pose('pose')}; frames 3 1"], "JI": [f"JI {BLOCK}"],
}
SINGLES = {mark.lower(): [mark.lower() + line[2:] for line in lines] for mark, lines in BOTH.items()}
CH = f"CH {pose('pose')}; frames 1 1; up 1.25"
SH = f"SH sheet 7; take 1; {pose('pose')}; frames 1 1"
# A sheet is kept once with a take, so these are not repeated: as many new ones as replaced ones.
SHEETS = [SH.replace("sheet 7; take 1", f"sheet {n % 500}; take {n // 500 + 1}") for n in range(RECORDS)]
# Those of doubles alone, with the record that goes before them.
DOUBLES_ONLY = {"AR": ("", squares("AR")), "CH": (CH, [CH]), "RN": ("", ["RN n 5"]), "SH": ("", SHEETS),
         "SQ": (SH, ["SQ sheet 7"])}
MARKS = {**{mark: ("", lines) for mark, lines in {**BOTH, **SINGLES}.items()}, **DOUBLES_ONLY}


def make_records(lines):
    """The bytes of records."""
    text = "\n".join(line for line in lines if line) + "\n"
    words = [top / "tools/jobs", "make", "-"]
    return subprocess.run(words, input=text.encode(), check=True, stdout=subprocess.PIPE).stdout


def counted(folder, data):
    """The instructions of the program on a job."""
    (folder / "in").write_bytes(data)
    return total_instructions(PROGRAM, folder / "in")


def rows():
    """Yields (name, instructions) of each mark."""
    with tempfile.TemporaryDirectory() as name:
        folder, before = pathlib.Path(name), {}
        for mark, (first, lines) in MARKS.items():
            head = make_records([first]) if first else b""
            before[head] = before.get(head) or counted(folder, head)
            records = make_records(lines) * (RECORDS // len(lines))
            yield f"record | {mark}", (counted(folder, head + records) - before[head]) / RECORDS
