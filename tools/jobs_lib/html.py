"""`jobs diff --html`: the differences of two answer files as one page that a browser shows from the disk, with nothing
from elsewhere."""
import html
from typing import NamedTuple

from .diff import NOT_PRINTED, Report, distance, number_text
from .layout import JOB
from .records import guess, load, walk
from .show import one_line
from .terminal import Failure, count

STYLE = """
body { font: 15px/1.45 system-ui, sans-serif; margin: 2rem auto; max-width: 72rem; padding: 0 1rem;
       color: #1a1a1a; background: #fff }
h1 { font-size: 1.4rem } h2 { font-size: 1.1rem; margin-top: 2rem }
table { border-collapse: collapse }
th, td { padding: .15rem .8rem .15rem 0; text-align: left; vertical-align: top; border-bottom: 1px solid #e4e4e4 }
td.number, th.number { text-align: right; font-variant-numeric: tabular-nums }
code, td.value { font: 13px/1.4 ui-monospace, monospace; white-space: nowrap }
details { border: 1px solid #ddd; border-radius: 4px; margin: .3rem 0; padding: .2rem .6rem;
          content-visibility: auto; contain-intrinsic-size: auto 2rem }
summary { cursor: pointer }
summary b { display: inline-block; min-width: 9rem }
summary i { color: #666; font-style: normal; margin-left: 1rem }
.inputs { color: #444; margin: .5rem 0 } .inputs code { white-space: normal } .found { overflow-x: auto }
form { position: sticky; top: 0; background: #fff; padding: .6rem 0; border-bottom: 1px solid #ccc; z-index: 1 }
form label { margin-right: 1rem; white-space: nowrap }
input[type=number] { width: 8rem } [hidden] { display: none }
"""

SCRIPT = """
const form = document.querySelector("form"), left = document.querySelector("#left");
const all = [...document.querySelectorAll("details")];
function choose() {
    const marks = new Set([...form.querySelectorAll("input[name=mark]:checked")].map(box => box.value));
    const least = Number(form.least.value) || 0, first = Number(form.first.value) || 0;
    let seen = 0;
    for (const one of all) {
        const far = one.dataset.ulps === "" || Number(one.dataset.ulps) >= least;
        one.hidden = !(marks.has(one.dataset.mark) && far && Number(one.dataset.record) >= first);
        seen += !one.hidden;
    }
    left.textContent = seen.toLocaleString("en") + " of " + all.length.toLocaleString("en") + " records";
}
form.addEventListener("input", choose);
form.addEventListener("submit", event => event.preventDefault());
document.querySelector("#open").addEventListener("click", () => {
    for (const one of all) if (!one.hidden) one.open = true;
});
document.querySelector("#close").addEventListener("click", () => { for (const one of all) one.open = false; });
choose();
"""


class DifferingRecord(NamedTuple):
    """A record that differs: its number, its mark, its rows (field, old, new, distance), and its largest distance, None
    where it has none."""

    number: int
    mark: str
    rows: list
    ulps: object


class PageReport(Report):
    """A report that keeps every difference for the page too."""

    def __init__(self, limit):
        super().__init__(limit)
        self.differing, self.end = [], []

    def different_marks(self, number, mark, old, new):
        super().different_marks(number, mark, old, new)
        self.differing.append(DifferingRecord(number, mark, [("the answer", old, new, "another answer")], None))

    def changed(self, place, layout, found):
        super().changed(place, layout, found)
        rows = [(layout.fields[i], number_text(layout, i, old), number_text(layout, i, new),
                 distance(layout, i, old, new))
                for i, old, new in found]
        steps = [layout.widths[i].ulps(old, new) for i, old, new in found if layout.widths[i] and i not in layout.flags]
        if place == "end":
            self.end = rows
        elif rows:
            largest = None if not steps or None in steps else max(steps)
            self.differing.append(DifferingRecord(int(place.split()[1]), layout.mark, rows, largest))


def read_inputs(path, numbers):
    """The records of a job with these numbers, each as its groups in text."""
    data = load(path)
    if guess(data) is not JOB:
        raise Failure(f"jobs: {path} is not a job file; expected the job that both answers are to")
    wanted, found = set(numbers), {}
    for number, (at, layout) in enumerate(walk(data, JOB), 1):
        if number in wanted:
            found[number] = one_line(data, at, layout)[0]
    return found


def cells(row, tag="td"):
    classes = ("", ' class="value"', ' class="value"', "")
    return "".join(f"<{tag}{kind if tag == 'td' else ''}>{html.escape(str(cell))}</{tag}>"
                   for cell, kind in zip(row, classes))


def table(rows):
    head = cells(("field", "old", "new", "distance"), "th")
    return f'<div class="found"><table><tr>{head}</tr>' + "".join(f"<tr>{cells(row)}</tr>"
                                                                  for row in rows) + "</table></div>"


def record(one, inputs):
    """A record that differs, folded up."""
    largest = f"{one.ulps:,} ulp" if one.ulps is not None else one.rows[0][3]
    given = (f'<div class="inputs">inputs: <code>{"<br>".join(map(html.escape, inputs.split("; ")))}</code></div>'
             if inputs else "")
    return (f'<details data-mark="{html.escape(one.mark)}" data-record="{one.number}" '
            f'data-ulps="{"" if one.ulps is None else one.ulps}">'
            f"<summary><b>record {one.number:,}</b> {html.escape(one.mark)}<i>{count(len(one.rows), 'number')}, "
            f"{html.escape(largest)}</i></summary>"
            f"{given}{table(one.rows)}</details>\n")


def by_mark(differing):
    """A row for each mark: its records, its numbers, its largest distance."""
    marks = {}
    for one in differing:
        records, numbers, largest = marks.get(one.mark, (0, 0, 0))
        marks[one.mark] = records + 1, numbers + len(one.rows), max(largest, one.ulps or 0)
    rows = "".join(f'<tr><td>{html.escape(mark)}</td><td class="number">{records:,}</td><td '
                   f'class="number">{numbers:,}</td><td class="number">{f"{largest:,}" if largest else "–"}</td></tr>'
                   for mark, (records, numbers, largest) in marks.items())
    head = ('<tr><th>mark</th><th class="number">records</th><th class="number">numbers</th><th '
            'class="number">largest, ulp</th></tr>')
    boxes = "".join(f'<label><input type="checkbox" name="mark" value="{html.escape(mark)}" checked> '
                    f'{html.escape(mark)}</label>' for mark in marks)
    return f"<table>{head}{rows}</table>", boxes


def page(names, summary, report, inputs):
    """The whole page."""
    rows, boxes = by_mark(report.differing)
    # here all are shown
    listed = "".join(f"<li>{html.escape(line)}</li>" for line in summary if not line.endswith(NOT_PRINTED))
    note = "" if inputs or not report.differing else "<p>The records' inputs are not shown: --job JOBS gives them.</p>"
    chosen = (f'<form>{boxes}<label>from record <input type="number" name="first" min="1"></label><label>at least '
              '<input type="number" name="least" min="0"> ulp</label>'
              '<button type="button" id="open">open all</button> <button type="button" id="close">close all</button> '
              '<span id="left"></span></form>\n')
    body = (f"<h2>By mark</h2>{rows}<h2>Records that differ</h2>{note}{chosen}"
            + "".join(record(one, inputs.get(one.number)) for one in report.differing)
            + f"<script>{SCRIPT}</script>") if report.differing else "<p>No record differs.</p>"
    end = f"<h2>ZZ</h2>{table(report.end)}" if report.end else ""
    title = " and ".join(names)
    return ('<!DOCTYPE html>\n<html lang="en"><head><meta '
            f'charset="utf-8"><title>{html.escape(title)}</title><style>{STYLE}</style></head>\n'
            f"<body><h1>{html.escape(title)}</h1><ul>{listed}</ul>{end}{body}</body></html>\n")


def write_page(path, names, summary, report, job):
    """The page into a file."""
    inputs = read_inputs(job, [one.number for one in report.differing]) if job else {}
    try:
        with open(path, "w", encoding="utf-8", errors="backslashreplace") as file:
            file.write(page(names, summary, report, inputs))
    except OSError as error:
        raise Failure(f"jobs: {path} cannot be written: {error.strerror}")
