"""Lists of points from Python: the binding beside numpy, on the same values. Prints lines as peers.cpp does.

usage: python3 lists.py ROUNDS     with a Python that has numpy; PYTHONPATH names the binding
"""
import math
import sys
import time

import numpy
import sim3

COUNTS = (200, 20_000)
TOLERANCE = 1e-12


def least(rounds, work):
    """The least time of a call, in nanoseconds."""
    found = math.inf
    for _ in range(rounds):
        begin = time.perf_counter_ns()
        work()
        found = min(found, time.perf_counter_ns() - begin)
    return found


def rows(rounds, count):
    pose = [0.8, 0.0, 0.6, 0.0, 1.0, 2.0, 3.0, 0.25]
    up = math.exp(pose[7])
    points = numpy.random.default_rng(1).uniform(-1, 1, (count, 3))
    w, x, y, z = pose[:4]
    turn = numpy.array([[1 - 2 * (y * y + z * z), 2 * (x * y - w * z), 2 * (x * z + w * y)],
                        [2 * (x * y + w * z), 1 - 2 * (x * x + z * z), 2 * (y * z - w * x)],
                        [2 * (x * z - w * y), 2 * (y * z + w * x), 1 - 2 * (x * x + y * y)]])
    matrix, shift = (up * turn).T.copy(), numpy.array(pose[4:7])
    ours, theirs = numpy.empty_like(points), numpy.empty_like(points)

    def port():
        sim3.act_many(pose, points, up, out=ours)

    def peer():
        numpy.matmul(points, matrix, out=theirs)
        theirs.__iadd__(shift)

    port()
    peer()
    if not numpy.allclose(ours, theirs, rtol=TOLERANCE, atol=TOLERANCE):
        sys.exit(f"peers: {count} points from Python: the answers differ, so nothing is timed")
    times = [least(rounds, work) / count for work in (port, peer)]
    print(f"{count:,} points from Python, one | {times[0]:.2f} | numpy | {times[1]:.2f}")


for points_count in COUNTS:
    rows(int(sys.argv[1]), points_count)
