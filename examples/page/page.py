#!/usr/bin/env python3
"""An opening of a choirbook, photographed in three runs with scales of their own, joined by the running join, and
drawn.

usage: examples/page/page.py [FILE]     writes the picture, examples/page/page.svg if no file is given

The points of a run are in units of its own camera. A shot of two runs joins them: X Y^-1 maps the points of the later
run to those of the earlier one. The running join multiplies these poses, so that all runs are mapped to the page, in
millimetres; the same points of two runs then differ only by roundings, which are measured. The last run is also pushed
inverted, which refusal 9 prevents by its frames. Exit status 1 if a number is not what it must be.
"""
import math
import pathlib
import random
import sys

sys.dont_write_bytecode = True  # the source tree stays as it is
sys.path.insert(0, str(pathlib.Path(__file__).resolve().parents[2] / "bindings" / "python"))

import sim3

WIDTH, HEIGHT = 420, 300  # of the opening, in millimetres
PAGE, RUNS = 0, (1, 2, 3)  # frames: the page, and the three runs;
SHOTS = (10, 11)  # the shots of two runs each
SPANS = {1: (0, 170), 2: (130, 300), 3: (255, 420)}  # the part of the page, from left to right, that each run shows
# The pose of each run on the page: angle, place, and the logarithm of its scale, millimetres for a unit of its camera.
RUN_PLACES = {1: (0.04, 6, -4, math.log(0.8)), 2: (-0.09, 118, 21, math.log(1.25)), 3: (0.13, 262, -18, math.log(0.55))}
COLOURS = {1: "#1b5e9e", 2: "#c8443c", 3: "#2f8f4e"}
MOST_GAP = 1e-12  # millimetres between the same points at a join, by rounding


def planar_pose(angle, x, y, sigma, from_, to):
    """A pose by its angle about z, its place and its log scale."""
    return sim3.Pose([math.cos(angle / 2), 0, 0, math.sin(angle / 2), x, y, 0, sigma], from_, to)


def staff_lines():
    """The opening: on each of two pages six staves of five lines, as lists of points x y z, and square notes upon
    them."""
    lines, notes, source = [], [], random.Random(4)
    for left in (22, 232):
        for staff in range(6):
            top = 28 + 43 * staff
            lines += [[(left + x, top + 5 * line, 0.0) for x in range(0, 167, 2)] for line in range(5)]
            notes += [(left + x + 0.5, top + 2.5 * source.randrange(9), 0.0) for x in range(8, 160, 9)]
    return lines, notes


def shown_by(run, points):
    """The points of the page that a run shows."""
    first, last = SPANS[run]
    return [point for point in points if first <= point[0] <= last]


def flat(points):
    return [number for point in points for number in point]


def rows(numbers):
    """x y z of each point again."""
    return list(zip(numbers[0::3], numbers[1::3], numbers[2::3]))


def photograph(opening):
    """Each run's lists of points in units of its camera, and the poses of the shots of two runs."""
    on_page = {run: planar_pose(*RUN_PLACES[run], run, PAGE) for run in RUNS}
    seen = {run: [rows(sim3.act_many(sim3.inverse(on_page[run]), flat(shown_by(run, points)))) for points in opening]
            for run in RUNS}
    shots = {}
    for shot, pair in zip(SHOTS, zip(RUNS, RUNS[1:])):
        place = planar_pose(0.3, sum(SPANS[pair[1]][:1]) + 15, 140, 0.1, shot, PAGE)
        for run in pair:
            shots[shot, run] = sim3.mul(sim3.inverse(on_page[run]), place)
    return on_page[1], seen, shots


def join_runs(first, shots):
    """The pose of each run on the page by the running join; and the refusal of the inverse of the last."""
    running, placed = sim3.Running(), {1: first}
    running.push(first)
    for shot, earlier, later in zip(SHOTS, RUNS, RUNS[1:]):
        join = sim3.mul_inv(shots[shot, earlier], shots[shot, later])
        if later == RUNS[-1]:
            refused, misplaced = refused_inverse(running, join)
        placed[later] = running.push(join)
    return placed, refused, misplaced


def refused_inverse(running, join):
    """The refusal of the inverse of a join, and where it would have placed the run without frames."""
    back = sim3.inverse(join)
    misplaced = sim3.mul(running.pose(), sim3.Pose(back.numbers, join.from_, join.to))
    try:
        running.push(back)
    except sim3.Refusal as refusal:
        return refusal, misplaced
    raise SystemExit("page: a run was joined the wrong way round, and not refused")


def move_lists(pose, lists):
    return [rows(sim3.act_many(pose, flat(points))) for points in lists]


def join_gaps(opening, moved):
    """The largest distance between the same point of the page in two runs, for each join, in millimetres."""
    found = []
    for earlier, later in zip(RUNS, RUNS[1:]):
        first, last = SPANS[later][0], SPANS[earlier][1]
        apart = 0.0
        for i, points in enumerate(opening):
            both = [dict(zip(shown_by(run, points), moved[run][i])) for run in (earlier, later)]
            apart = max([apart, *(math.dist(both[0][p], both[1][p]) for p in points if first <= p[0] <= last)])
        found.append(apart)
    return found


# ---- the picture

WIDTHS = {1: 1.6, 2: 1.0, 3: 0.5}  # of each run's lines where they overlap
INK, PAPER = "#222", "#fbf7ec"


def polyline(points, colour, width, dashed):
    """A staff line, which is straight."""
    path = " ".join(f"{x:.2f},{y:.2f}" for x, y, _ in (points[0], points[-1]))
    return (f'<polyline points="{path}" stroke="{colour}" stroke-width="{width}"'
            + (' stroke-dasharray="4 3"/>' if dashed else "/>"))


def note(point, colour, size):
    x, y, _ = point
    return (f'<rect x="{x - size:.2f}" y="{y - size:.2f}" width="{2 * size:.2f}" height="{2 * size:.2f}" '
            f'fill="{colour}"/>')


def draw(lists, run, width=None, dashed=False):
    """Draws a run's staff lines and notes; the last list has the notes."""
    *lines, notes = lists
    width = width or WIDTHS[run]
    return "".join([*(polyline(points, COLOURS[run], width, dashed) for points in lines if len(points) > 1),
                    *(note(point, COLOURS[run], 0.8 + 0.6 * width) for point in notes if not dashed)])


def bounds(lists):
    """The least box around all points, and a little more: x, y, width, height."""
    xs, ys = zip(*((x, y) for points in lists for x, y, _ in points))
    return min(xs) - 6, min(ys) - 6, max(xs) - min(xs) + 12, max(ys) - min(ys) + 12


def panel(title, place, box, body, below=()):
    """A part of the picture with its title; what lies outside of the box is cut off."""
    x, y, width, height = place
    words = [(y - 8, 13, title), *((y + height + 16 + 15 * i, 12, line) for i, line in enumerate(below))]
    texts = "".join(f'<text x="{x}" y="{at}" font-size="{size}">{text}</text>' for at, size, text in words)
    view = " ".join(f"{number:.1f}" for number in box)
    return f'{texts}<svg x="{x}" y="{y}" width="{width}" height="{height}" viewBox="{view}" fill="none">{body}</svg>\n'


def picture(seen, moved, misplaced, refused, gaps):
    """Before and after, the run that was handed in the wrong way round, and a join from nearby."""
    page = (f'<rect width="{WIDTH}" height="{HEIGHT}" fill="{PAPER}" stroke="#999" stroke-width=".6"/>'
            f'<line x1="{WIDTH / 2}" x2="{WIDTH / 2}" y2="{HEIGHT}" stroke="#999" stroke-width=".6"/>')
    before = "".join(draw(seen[run], run, 0.6) for run in RUNS)
    after = "".join(draw(moved[run], run) for run in RUNS)
    wrong = "".join([page, *(draw(moved[run], run, 0.6) for run in RUNS[:-1]),
                     draw(misplaced, RUNS[-1], 1.0, dashed=True)])
    apart = " and ".join(f"{most:.0e} mm" for most in gaps)
    legend = "".join(f'<tspan fill="{COLOURS[run]}">run {run}: {math.exp(-RUN_PLACES[run][3]):.2f} units a '
                     'millimetre</tspan>    ' for run in RUNS)
    near = f'<rect x="118" y="60" width="80" height="60" fill="{PAPER}"/>{after}'
    return ('<svg xmlns="http://www.w3.org/2000/svg" viewBox="0 0 1000 790" font-family="sans-serif">\n'
            f'<rect width="1000" height="790" fill="#fff"/>\n<g fill="{INK}">\n'
            f'<text x="20" y="26" font-size="14" xml:space="preserve">{legend}</text>\n'
            + panel("before: each run in the units of its own camera", (20, 64, 470, 330),
                    bounds([points for run in RUNS for points in seen[run]]), before)
            + panel("after: the staff lines of all runs over each other", (20, 428, 470, 336), (0, 0, WIDTH, HEIGHT),
                    page + after)
            + panel("the last run handed in the wrong way round", (520, 64, 460, 296),
                    (-10, -10, WIDTH + 150, HEIGHT + 70), wrong,
                    (f"refused by {refused.number}: its frames do not meet, and nothing is moved;",
                     "dashed: where it would have come to lie"))
            + panel("the first join from nearby: run 2 begins over run 1, which ends", (520, 428, 460, 318),
                    (120, 62, 69, 47.7), near,
                    (f"left by rounding at the two joins: at most {apart}",))
            + "</g>\n</svg>\n")


def main(words):
    lines, notes = staff_lines()
    opening = [*lines, notes]
    first, seen, shots = photograph(opening)
    placed, refused, misplaced = join_runs(first, shots)
    moved = {run: move_lists(placed[run], seen[run]) for run in RUNS}
    gaps = join_gaps(opening, moved)
    out = pathlib.Path(words[0]) if words else pathlib.Path(__file__).with_name("page.svg")
    out.write_text(picture(seen, moved, move_lists(misplaced, seen[3]), refused, gaps), encoding="utf-8")
    print(refused)
    for run in RUNS:
        print(f"run {run}: from frame {placed[run].from_} to frame {placed[run].to}, {sum(map(len, seen[run])):,} "
              f"points, scale {math.exp(placed[run].numbers[7]):.6g}")
    for join, most in enumerate(gaps, 1):
        print(f"join {join}: the same points of both runs are at most {most:.2e} mm apart")
    true = max(math.dist(p, q) for run in RUNS for points, found in zip(opening, moved[run])
               for p, q in zip(shown_by(run, points), found))
    print(f"from where they were made: at most {true:.2e} mm")
    good = refused.number == 9 and max(gaps) <= MOST_GAP and true <= MOST_GAP
    print(f"page: {out} is drawn" if good else "page: WRONG, see above")
    return 0 if good else 1


if __name__ == "__main__":
    try:
        sys.exit(main(sys.argv[1:]))
    except sim3.LibraryMissing as missing:
        print(missing, file=sys.stderr)
        sys.exit(2)
