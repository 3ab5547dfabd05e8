"""A running join: poses are joined as they come. And the Newton step on every pose of a list."""
import array
import ctypes
from typing import Optional

from . import host, raw
from .arrays import Poses, push_rows
from .engine import Engine
from .numbers import ctypes_numbers, ctypes_over, number
from .poses import Pose, answered_pose, frames, require_pose, uint16
from .refusals import explained, refusal, wrong_length
from .widths import DOUBLE

POSE = raw.KINDS["pose"][0]
FROM, TO, EVERY, SINCE, STARTED = range(5)  # the places of the state


class Running:
    """Poses joined as they come: the first is the running pose, and each later one replaces it by running X.
    After every nth product, as every(n) says, its quaternion is renormalised; never, before any such call."""

    def __init__(self):
        self._numbers, self._state = (ctypes.c_double * POSE)(), (ctypes.c_uint16 * 5)()
        self._call("running_start", self._numbers, self._state)

    def push(self, x, up=None) -> Pose:
        """Joins a Pose, and returns the new running pose. up is e^sigma of the running pose, and
        unused at the first; left out, sim3.host computes it. Refusal 9 where the running pose does not start
        from the frame to which x goes; then nothing changes. Of a sim3.Poses of arrays each row is joined in turn, and
        the answer is one with the running pose after each."""
        if isinstance(x, Poses):
            return push_rows(x, up, self._numbers, self._state)
        x = require_pose("sim3.Running.push: x", x)
        numbers = ctypes_numbers("sim3.Running.push: x", x.numbers)
        if len(numbers) != POSE:
            raise wrong_length("Running.push", "x", "pose", len(numbers), DOUBLE)
        given = frames("sim3.Running.push: x.", x.from_, x.to)
        if raw.differs():
            raise raw.other_environment("running_push")
        up = host.up(self._numbers) if up is None else number("sim3.Running.push: up", up)
        refused = raw.call("running_push", self._numbers, self._state, numbers, given, up)
        if refused == 9:
            raise refusal(9, "Running.push",
                          f"the running pose starts from frame {self._state[FROM]}, and x goes to frame "
                          f"{x.to}; running X wants one frame there, so hand in a pose that goes to it")
        if refused:
            raise explained(refused, "Running.push", {})
        return self._current()

    def every(self, n):
        """From here on after every nth product, 0 for never. Products are counted since the last
        renormalisation, also while n is 0. The pose does not change."""
        self._call("running_every", self._state, uint16("sim3.Running.every: n", n, "n"))

    def pose(self) -> Optional[Pose]:
        """The running pose; None before the first."""
        return self._current() if self._state[STARTED] == 1 else None

    def __repr__(self):
        every, since = self._state[EVERY], self._state[SINCE]
        often = f"after every {every} products" if every else "never"
        return f"<sim3.Running: {self.pose() or 'no pose yet'}, renormalised {often}, " \
               f"{since:,}{' or more' if since == 65_535 else ''} since then>"

    def _current(self):
        return answered_pose(array.array("d", self._numbers), self._state[FROM], self._state[TO])

    @staticmethod
    def _call(name, *arguments):
        refused = raw.call(name, *arguments)
        if refused:
            raise explained(refused, name, {})


def renormalize_all(poses):
    """The Poses of a list, each after one Newton step that brings its quaternion nearer to length 1, with its
    own frames. The list and its poses stay as they are. A sim3.Poses of arrays is answered by one, as renormalize
    does."""
    if isinstance(poses, Poses):
        return Engine(DOUBLE, host).renormalize(poses)
    poses = [require_pose(f"sim3.renormalize_all: poses[{i}]", x) for i, x in enumerate(poses)]
    numbers = array.array("d")
    for i, x in enumerate(poses):
        found = ctypes_numbers(f"sim3.renormalize_all: poses[{i}]", x.numbers)
        if len(found) != POSE:
            raise wrong_length("renormalize_all", f"poses[{i}]", "pose", len(found), DOUBLE)
        numbers.extend(found)
    refused = raw.call("renormalize_all", ctypes_over(numbers, len(numbers)))
    if refused:
        raise explained(refused, "renormalize_all", {})
    return [answered_pose(numbers[POSE * i:POSE * (i + 1)], x.from_, x.to) for i, x in enumerate(poses)]
