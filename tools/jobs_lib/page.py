"""The parts of docs/JOB-FORMAT.md and the files of examples/format that follow from the job table
and from runs of the program. tests/tools compares them, and renews them with --renew.
"""
import re
import textwrap

from .floats import SINGLE
from .layout import ANSWER, END, JOB, MATRIX, REFUSALS
from .records import scan, walk
from .show import hex_lines

JOB_TITLE, ANSWER_TITLE = "The job file", "The answer"


def group_line(at, group):
    """A group with its offset and what its numbers are."""
    parts = [part.lstrip(".") for part in group.parts]
    if group.parts == MATRIX:
        parts[4:-1] = [".."]
    what = f"{group.about}: {' '.join(parts)}" if len(parts) > 1 else group.about
    return f"  {at:4}  {group.name:14}  {what}"


def layout_text(direction, layout):
    """The bytes of one record."""
    title = f"{layout.mark} {direction}, {layout.size} bytes: {layout.about}"
    return "\n".join([title, *(group_line(at, group) for at, group in layout.offsets())])


def layouts(direction, table):
    return "\n".join(layout_text(direction, layout) for layout in table if layout.width is not SINGLE)


def short_text(direction, layout):
    """The bytes of one record in singles: where each of its groups begins."""
    places = ", ".join(f"{at} {group.name}" for at, group in layout.offsets())
    title = f"{layout.mark} {direction + ',':4} {layout.size:3} bytes: "
    return textwrap.fill(title + places, 120, subsequent_indent=" " * len(title))


def in_singles():
    """Every record in singles, each with its answer."""
    pairs = ((layout, ANSWER[mark]) for mark, layout in JOB.items() if layout.width is SINGLE)
    return "\n".join(f"{short_text('in', record)}\n{short_text('out', answer)}" for record, answer in pairs)


def refusals():
    return "\n".join(f" {number:2}  {text}" for number, text in REFUSALS.items())


def dump(data, table):
    """A file of records with its bytes; the last record may be cut."""
    found = scan(data, table, "")
    lines = [line for at, layout in walk(data, table) for line in hex_lines(data, at, layout)]
    end = found.end
    if found.counts:
        lines += hex_lines(data, end, END)
        end += END.size
    if end < len(data):
        lines.append(f"{end:8}  {data[end:].hex(' ')}")
    return "\n".join(lines)


def example(text, job, answer):
    """An example's file: its lines of text, the job file made of them, the program's answer."""
    return (f"{text.strip()}\n\n"
            f"{JOB_TITLE}, {len(job)} bytes:\n{dump(job, JOB)}\n\n"
            f"{ANSWER_TITLE}, {len(answer)} bytes:\n{dump(answer, ANSWER)}\n")


def example_text(whole):
    """The lines of text of an example's file."""
    return whole.partition(f"\n{JOB_TITLE}, ")[0]


def without_answer(whole):
    return whole.partition(f"\n{ANSWER_TITLE}, ")[0]


def fill(page, parts):
    """The page with each generated part put between its two marks."""
    for name, content in parts.items():
        between = re.compile(rf"(<!-- generated: {name} -->\n).*?(<!-- end -->)", re.DOTALL)
        if not between.search(page):
            raise ValueError(f"the page has no place for '{name}'")
        page = between.sub(lambda found: f"{found[1]}```\n{content.rstrip()}\n```\n{found[2]}", page)
    return page


def page_parts(example_ac):
    """All generated parts of the page."""
    return {"records of a job file": layouts("in", JOB.values()),
            "records of an answer file": layouts("out", [*ANSWER.values(), END]),
            "records of singles": in_singles(),
            "refusals": refusals(),
            "example": example_ac}
