"""The picture of `jobs arms`: AR records in the plane of sigma sigma and z, both axes logarithmic."""
import math
from xml.sax.saxutils import escape

WIDTH, HEIGHT = 1052, 660
LEFT, TOP, SIDE, BOTTOM = 86, 62, 700, 590  # the plot: its left, upper, right and lower edge
# Of each axis: the room of the place of zero and of each other place beside the decades, and the
# space on both sides of what is written.
ACROSS, UP = (44, 24), (34, 12)
NAMES = 74  # the width of the strip with the arms' names, in which no mark stands
LEAST, MOST = -12, 6  # decades; numbers beyond them share a place
ALWAYS = (-6, 1)  # decades that are always there, so that every limit is
CELL = 5  # of the marks of one rule within so many units of each other one is drawn
SIZE = 3.6  # half the width of a mark

# A mark for each rule: its shape, by corners or as lines, and its colour, dark in any print.
SHAPES = [("circle", "#0b3c8c"), ("triangle", "#7a4300"), ("square", "#00572f"),
          ("diamond", "#6d0f57"), ("plus", "#a3001e"), ("cross", "#000000")]
PATHS = {"triangle": "M0,-4.6L4.2,3.2H-4.2Z", "square": "M-3.4,-3.4H3.4V3.4H-3.4Z",
         "diamond": "M0,-5L5,0L0,5L-5,0Z", "plus": "M-4.6,0H4.6M0,-4.6V4.6",
         "cross": "M-3.5,-3.5L3.5,3.5M-3.5,3.5L3.5,-3.5"}


class Axis:
    """Where a number stands along an axis: zero, decades, and places for what is beyond them."""

    def __init__(self, values, start, end, rooms, strip=0):
        self.start, self.way = start, 1 if end > start else -1
        self.room, self.space = rooms
        finite = [x for x in values if 0 < x < math.inf]
        low, high = (min(finite), max(finite)) if finite else (1, 1)
        self.low = max(LEAST, min(ALWAYS[0], math.floor(math.log10(low))))
        self.high = min(MOST, max(ALWAYS[1], math.ceil(math.log10(high))))
        least, most = 10.0 ** self.low, 10.0 ** self.high
        self.before = ["0"] + [f"<1e{self.low}"] * (low < least)
        beyond = [(f">1e{self.high}", high > most), ("inf", math.inf in values),
                  ("NaN", any(x != x for x in values))]
        self.behind = [name for name, needed in beyond if needed]
        self.least, self.most = least, most
        self.lanes = self.room * len(self.before)
        self.first = self.lanes + strip  # where the logarithmic part begins
        rest = abs(end - start) - self.first - self.room * len(self.behind)
        self.decade = rest / (self.high - self.low)

    def lane(self, name):
        """The middle of a place beside the decades."""
        if name in self.before:
            return self.room * (self.before.index(name) + 0.5)
        last = self.first + self.decade * (self.high - self.low)
        return last + self.room * (self.behind.index(name) + 0.5)

    def along(self, x):
        if x != x:
            return self.lane("NaN")
        if x == 0 or x == math.inf:
            return self.lane("inf" if x else "0")
        if x < self.least or x > self.most:
            return self.lane(self.before[1] if x < self.least else self.behind[0])
        return self.first + self.decade * (math.log10(x) - self.low)

    def at(self, x):
        return self.start + self.way * self.along(x)

    def ticks(self):
        """Name and place of what is written beside the axis, with `space` to each side."""
        lanes = {name: self.lane(name) for name in (*self.before, *self.behind)}
        for name, place in lanes.items():
            yield name, self.start + self.way * place
        plain = {-2: "0.01", -1: "0.1", 0: "1", 1: "10", 2: "100"}
        for decade, place in self.decades():
            if all(abs(place - other) >= self.space for other in lanes.values()):
                yield plain.get(decade, f"1e{decade}"), self.start + self.way * place

    def decades(self):
        """The decades that are ruled: each, or each second, third and so on where room is short."""
        step = next((n for n in (1, 2, 3, 4) if n * self.decade >= 2 * self.space), 6)
        for decade in range(self.low, self.high + 1):
            if not decade % step:
                yield decade, self.first + self.decade * (decade - self.low)

    def rulings(self):
        return [self.start + self.way * place for _, place in self.decades()]

    def edges(self):
        """The ends of the places before the decades, of the decades, and of the places behind."""
        last = self.first + self.decade * (self.high - self.low)
        ends = {self.lanes, self.first, *([last] if self.behind else [])}
        return [self.start + self.way * end for end in sorted(ends)]


def line(x1, y1, x2, y2, kind):
    return f'<line x1="{x1:.1f}" y1="{y1:.1f}" x2="{x2:.1f}" y2="{y2:.1f}" class="{kind}"/>'


def text_element(x, y, text, kind="plain"):
    return f'<text x="{x:.1f}" y="{y:.1f}" class="{kind}">{escape(text)}</text>'


def frame(across, up):
    """Box, decades, and what is written beside both axes."""
    for kind, xs, ys in (("decade", across.rulings(), up.rulings()),
                         ("edge", across.edges(), up.edges())):
        yield from (line(x, TOP, x, BOTTOM, kind) for x in xs)
        yield from (line(LEFT, y, SIDE, y, kind) for y in ys)
    yield from (text_element(x, BOTTOM + 17, name, "middle") for name, x in across.ticks())
    yield from (text_element(LEFT - 7, y + 4, name, "end") for name, y in up.ticks())
    yield f'<rect x="{LEFT}" y="{TOP}" width="{SIDE - LEFT}" height="{BOTTOM - TOP}" class="box"/>'
    yield text_element((LEFT + SIDE) / 2, BOTTOM + 42, "σ² (σ·σ rounded)", "middle")
    middle = (TOP + BOTTOM) / 2
    yield text_element(28, middle, "z", "middle")


def limit_path(across, up, limit):
    """The curve σ² + z = limit, from the place of σ² = 0 to that of z = 0."""
    half, points = limit / 2, [(LEFT, up.at(limit))]
    steps = [half * 10 ** (-n / 12) for n in range(0, 12 * 12)]
    points += [(across.at(x), up.at(limit - x)) for x in reversed(steps) if x >= across.least]
    points += [(across.at(limit - z), up.at(z)) for z in steps if z >= up.least]
    points.append((across.at(limit), BOTTOM))
    return "M" + "L".join(f"{x:.1f},{y:.1f}" for x, y in points)


def limits(across, up, arm_from, series_below):
    """The curves between the arms, and the dashed line left of which v0 and w0 are series; each on
    a white one, so that it is seen among many marks."""
    x, y = across.at(series_below), up.at(arm_from[-1] - series_below)
    yield line(x, TOP, x, y, "under") + line(x, TOP, x, y, "dashed")
    for limit in arm_from:
        curve = limit_path(across, up, limit)
        yield f'<path d="{curve}" class="under"/><path d="{curve}" class="limit"/>'


def region_names(across, up, arm_from, rules, rule_text):
    """The arms' names under their upper limits, and that of the closed one above the last."""
    x = across.edges()[0] + 7
    for limit, rule in zip(arm_from, rules):
        yield text_element(x, up.at(limit) + 13, rule_text(*rule), "name")
    yield text_element(x, up.at(arm_from[-1]) - 5, "closed", "name")


def marks(found, across, up):
    """The records' marks; of those that would lie on another of their rule one is drawn."""
    drawn = set()
    for number, kind, square, z in zip(found.numbers, found.kinds, found.squares, found.angles):
        x, y = across.at(square), up.at(z)
        cell = kind, x // CELL, y // CELL
        if cell not in drawn:
            drawn.add(cell)
            yield (f'<use href="#mark{kind}" x="{x:.1f}" y="{y:.1f}">'
                   f'<title>record {number}: σ² = {square!r}, z = {z!r}</title></use>')


def shapes():
    """The marks by their names, for `use`."""
    for kind, (shape, colour) in enumerate(SHAPES):
        drawn = f'<path d="{PATHS[shape]}"/>' if shape in PATHS else f'<circle r="{SIZE}"/>'
        fill = "none" if shape in ("plus", "cross") else "#ffffff"
        yield f'<g id="mark{kind}" stroke="{colour}" fill="{fill}" stroke-width="1.3">{drawn}</g>'


def legend(found, arm_from, series_below, rules, rule_text, drawn):
    """The marks with their rules and counts, the lines, and what is not drawn."""
    x, y = SIDE + 28, TOP + 12
    for kind, rule in enumerate(rules):
        yield f'<use href="#mark{kind}" x="{x + 6}" y="{y - 4}"/>'
        yield text_element(x + 20, y, rule_text(*rule))
        yield text_element(WIDTH - 24, y, f"{found.rules[rule]:,}", "end")
        y += 22
    yield line(x, y - 12, WIDTH - 24, y - 12, "edge")
    for name, n in (("answered", found.answered), ("refused, not drawn", found.refused)):
        yield text_element(x + 20, y + 6, name)
        yield text_element(WIDTH - 24, y + 6, f"{n:,}", "end")
        y += 22
    y += 24
    for kind, text in (("limit", "σ² + z at a limit of the arms:"),
                       *((None, f"{limit!r}") for limit in arm_from),
                       ("dashed", "σ² at the limit of v0, w0 by series:"),
                       (None, f"{series_below!r}")):
        if kind:
            yield line(x, y - 4, x + 14, y - 4, kind)
        yield text_element(x + 20, y, text)
        y += 19
    if drawn < len(found.numbers):
        yield text_element(x, y + 20, f"{drawn:,} marks are drawn: of records with")
        yield text_element(x, y + 37, "one rule in one place the first.")


STYLE = """text{font:13px sans-serif;fill:#000}.title{font-size:17px}.middle{text-anchor:middle}
.end{text-anchor:end}.name{font-weight:bold}
line,.limit,.box{stroke:#000;fill:none}.under{stroke:#fff;stroke-opacity:.75;stroke-width:4;fill:none}
.decade{stroke:#ddd}.edge{stroke:#888}
.limit{stroke-width:1.6}.dashed{stroke-width:1.6;stroke-dasharray:6 4}"""


def picture(found, arm_from, series_below, rules, rule_text):
    """The whole picture as SVG."""
    across, up = Axis(found.squares, LEFT, SIDE, ACROSS, NAMES), Axis(found.angles, BOTTOM, TOP, UP)
    all_marks = list(marks(found, across, up))
    records = len(found.numbers)
    title = f"Arms of {records:,} AR record" + ("" if records == 1 else "s")
    return "\n".join([
        f'<svg xmlns="http://www.w3.org/2000/svg" viewBox="0 0 {WIDTH} {HEIGHT}" '
        f'width="{WIDTH}" height="{HEIGHT}">',
        f"<title>{title}</title>", f"<style>{STYLE}</style>", "<defs>", *shapes(), "</defs>",
        f'<rect width="{WIDTH}" height="{HEIGHT}" fill="#ffffff"/>',
        text_element(LEFT, 34, title, "title"), *frame(across, up),
        '<g id="records">', *all_marks, "</g>",
        *limits(across, up, arm_from, series_below),
        *region_names(across, up, arm_from, rules, rule_text),
        *legend(found, arm_from, series_below, rules, rule_text, len(all_marks)), "</svg>", ""])
