#!/usr/bin/env python3
"""The engine from Python: joins two runs of shots by a similarity, and frames keep the order of the factors right;
moves the points of a staff line, computes Jacobian blocks, a square root with its remainder and a line in singles, and
shows refusals. Compares every answer with numbers known by hand; exit status 1 and a message if one is wrong.
examples/python/run builds what it needs.
"""
import array
import math
import pathlib
import sys

sys.dont_write_bytecode = True  # the source tree stays as it is
sys.path.insert(0, str(pathlib.Path(__file__).resolve().parents[2] / "bindings" / "python"))

import sim3

HALF_ROOT, DOUBLE = math.sqrt(0.5), math.log(2)
FIRST, SECOND = 1, 2  # frames: the two runs,
SHOT, NEXT = 10, 11  # a shot that stands in both, and one of the second's
wrong = []


def known(what, found, expected, most=1e-12):
    """Prints a list; reports a number that is further than `most` from the one known by hand."""
    print(f"{what}:", *(f"{x:.6g}" for x in found))
    if len(found) != len(expected):
        wrong.append(f"{what}: {len(found)} numbers and not {len(expected)}")
    for i, (x, y) in enumerate(zip(found, expected)):
        if not abs(x - y) <= most:
            wrong.append(f"{what}: number {i} is {x!r} and not {y!r}")


def known_pose(what, found, numbers, from_, to):
    """The same of a pose and its frames."""
    known(what, found.numbers, numbers)
    print(f"{what}: from frame {found.from_} to frame {found.to}")
    if (found.from_, found.to) != (from_, to):
        wrong.append(f"{what}: frames {found.from_} and {found.to}, and not {from_} and {to}")


def join_runs():
    """The camera hand: a shot stands in both runs, at x in the first and at y in the second. X Y^-1
    takes the second run's places to the first's."""
    turn = [0, 0, math.pi / 2, 0, 0, 0, math.log(2)]  # a quarter turn about z, and twice the size
    shift = sim3.Pose([1, 0, 0, 0, 10, 22, 30, 0], from_=FIRST, to=FIRST)
    x = sim3.mul(shift, sim3.exp(turn, from_=SHOT, to=FIRST))
    y = sim3.Pose([1, 0, 0, 0, 1, 0, 0, 0], from_=SHOT, to=SECOND)
    join = sim3.mul_inv(x, y)
    next_shot = sim3.Pose([1, 0, 0, 0, 2, 0, 0, 0], from_=NEXT, to=SECOND)
    placed = sim3.mul(join, next_shot)
    back = sim3.inv_mul(placed, join)
    known_pose("join", join, [HALF_ROOT, 0, 0, HALF_ROOT, 10, 20, 30, DOUBLE], SECOND, FIRST)
    known_pose("next shot", placed, [HALF_ROOT, 0, 0, HALF_ROOT, 10, 24, 30, DOUBLE], NEXT, FIRST)
    known_pose("and back", back, [1, 0, 0, 0, 2, 0, 0, 0], NEXT, SECOND)
    refused(9, sim3.mul, next_shot, join)  # the wrong way round
    return join


def move_line(join):
    """The page flattener: the points of a staff line, x y z of each."""
    line = array.array("d", [0, 0, 0, 1, 0, 0, 2, 0, 0])
    moved = sim3.act_many(join, line)
    known("staff line", moved, [10, 20, 30, 10, 22, 30, 10, 24, 30])
    known("point by point", sim3.act_each(join, line), [10, 20, 30, 10, 22, 30, 10, 24, 30])


def times(block, tau):
    """A block times a tangent: the rows (a 0 0), (b c f), (0 0 e)."""
    a, b, c, f, e = block[:9], block[9:18], block[18:27], block[27:30], block[30]
    phi, rho, sigma = tau[:3], tau[3:6], tau[6]
    rows = range(3)
    return [*(sum(a[r + 3 * k] * phi[k] for k in rows) for r in rows),
            *(sum(b[r + 3 * k] * phi[k] + c[r + 3 * k] * rho[k] for k in rows) + f[r] * sigma for r in rows),
            e * sigma]


def adjust(join):
    """The adjuster: both sides from one evaluation. Each block leaves its own tangent as it is."""
    tau = [0.1, -0.2, 0.3, 1, 2, 3, 0.5]
    left, left_inv, right, right_inv = sim3.block_pair(tau)
    by_phi, by_rho, by_sigma, by_point = sim3.act_jacobians_left(join, [1, 0, 0])
    known("left", times(left, tau), tau)
    known("left inverse", times(left_inv, tau), tau)
    known("right", times(right, tau), tau)
    known("right inverse", times(right_inv, tau), tau)
    known("moved point by sigma", by_sigma, [10, 22, 30])


def root_and_remainder():
    """The cradle, whose host has no square root to rely on: the root of 2 with its remainder, and Exp with
    the engine's root of z."""
    turn = [0, 0, math.pi / 2, 0, 0, 0, DOUBLE]
    turned = sim3.exp(turn, SHOT, FIRST, sim3.host.tangent_values(turn, root=sim3.nearest_root))
    known("root of 2", sim3.root(2), [6369051672525772, 7192236498376048, -52, 1.4142135623730951])
    known("exp by that root", turned.numbers, [HALF_ROOT, 0, 0, HALF_ROOT, 0, 0, 0, DOUBLE])


def chain():
    """The camera hand again, shot by shot: four quarter turns, each with a step along its own x, come back to
    where they began."""
    running = sim3.Running()
    running.every(2)
    for _ in range(4):
        running.push(sim3.Pose([HALF_ROOT, 0, 0, HALF_ROOT, 1, 0, 0, 0], FIRST, FIRST))
    known("four shots", running.pose().numbers, [-1, 0, 0, 0, 0, 0, 0, 0])


def in_singles():
    """The second camera, whose board sends singles: a line is turned and moved by the engine at f32."""
    turned = sim3.f32.exp([0, 0, math.pi / 2, 0, 0, 0, DOUBLE], from_=SHOT, to=FIRST)
    moved = sim3.f32.act_many(turned, array.array("f", [1, 0, 0, 2, 0, 0]))
    known("line at f32", moved, [0, 2, 0, 0, 4, 0], most=1e-6)


def refused(number, function, *arguments):
    """A call that must be refused, with this number."""
    try:
        function(*arguments)
    except sim3.Refusal as refusal:
        print(refusal)
        if refusal.number != number:
            wrong.append(f"{function.__name__}: refusal {refusal.number} and not {number}")
    else:
        wrong.append(f"{function.__name__}: an answer and not refusal {number}")


def main():
    join = join_runs()
    move_line(join)
    adjust(join)
    root_and_remainder()
    chain()
    in_singles()
    refused(100, sim3.exp, [0] * 6, SHOT, FIRST)
    refused(2, sim3.block_inverse, [0] * 31)
    refused(1, sim3.scaled_pair, 0, -1)
    refused(5, sim3.act_many, join, [0] * 7)
    refused(8, sim3.root, math.inf)
    for message in wrong:
        print(f"WRONG: {message}")
    print("example: WRONG, see above" if wrong else "example: every answer is the one known by hand")
    return 1 if wrong else 0


if __name__ == "__main__":
    try:
        sys.exit(main())
    except sim3.LibraryMissing as missing:
        print(missing, file=sys.stderr)
        sys.exit(2)
