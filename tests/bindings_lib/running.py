"""The running join and the renormalised list of poses from each language, against a model: products by sim3_mul, Newton
steps by sim3_renormalize, and the request's rules of when a step is made, with a count that has no bound."""
import ctypes
import math
import random
import struct
import tempfile

import sim3
from .common import bits, frame_list, packed, run, rust_program, same
from sim3 import raw

PUSH, EVERY = 0, 1
HISTORIES, EVENTS = 60, 60
SETTINGS = (0, 0, 1, 2, 3, 5, 65_535)
STRANGE = (math.nan, math.inf, -math.inf, 0.0, -0.0, 5e-324, 1e308)


def doubles(numbers):
    return (ctypes.c_double * len(numbers))(*numbers)


class Model:
    """A running join by the calls that were there before it."""

    def __init__(self):
        self.pose, self.frames, self.n, self.count = None, (0, 0), 0, 0

    def push(self, numbers, frames, up):
        if self.pose is None:
            self.pose, self.frames = list(numbers), frames
            return 0
        out, out_frames = doubles([0.0] * 8), frame_list((0, 0))
        status = raw.call("mul", doubles(self.pose), frame_list(self.frames), doubles(numbers), frame_list(frames), up,
                          out, out_frames)
        if status:
            return status
        self.count += 1
        if self.n and self.count >= self.n:
            same(raw.call("renormalize", out), 0, "sim3_renormalize")
            self.count = 0
        self.pose, self.frames = list(out), tuple(out_frames)
        return 0

    def every(self, n):
        self.n = n
        return 0

    def pose_and_frames(self):
        """The pose's bits and frames, or None."""
        return self.pose and (bits(packed(self.pose)), self.frames)


class Lists:
    """A running join by the bare calls."""

    def __init__(self):
        self.pose, self.state = doubles([7.0] * 8), frame_list([9] * 5)
        same(raw.call("running_start", self.pose, self.state), 0, "sim3_running_start")
        same((list(self.pose), list(self.state)), ([0.0] * 8, [0] * 5), "what sim3_running_start writes")

    def push(self, numbers, frames, up):
        before = bytes(self.pose), bytes(self.state)
        status = raw.call("running_push", self.pose, self.state, doubles(numbers), frame_list(frames), up)
        assert not status or (bytes(self.pose), bytes(self.state)) == before, (
            f"refusal {status}, but something was written")
        return status

    def every(self, n):
        before = bytes(self.pose)
        status = raw.call("running_every", self.state, n)
        same(bytes(self.pose), before, "the pose after sim3_running_every")
        return status

    def pose_and_frames(self):
        assert self.state[4] in (0, 1), f"state {list(self.state)}"
        return (bits(bytes(self.pose)), tuple(self.state[:2])) if self.state[4] else None


class Package:
    """A running join by the Python package."""

    def __init__(self):
        self.running = sim3.Running()

    def push(self, numbers, frames, up):
        try:
            answer = self.running.push(sim3.Pose(numbers, *frames), up)
        except sim3.Refusal as refusal:
            assert "sim3.Running.push: refusal 9: the running pose starts from frame" in str(refusal), str(refusal)
            return refusal.number
        same(bits(packed(answer.numbers)), self.pose_and_frames()[0], "the pose that push gives")
        return 0

    def every(self, n):
        self.running.every(n)
        return 0

    def pose_and_frames(self):
        pose = self.running.pose()
        return pose and (bits(packed(pose.numbers)), (pose.from_, pose.to))


def drawn(draw):
    """A pose's eight numbers near a unit quaternion, some of them strange."""
    quaternion = [draw.gauss(0, 1) for _ in range(4)]
    length = math.hypot(*quaternion) * (1 + draw.uniform(-1e-3, 1e-3))
    numbers = [x / length for x in quaternion] + [draw.uniform(-2, 2) for _ in range(3)] + [draw.uniform(-0.1, 0.1)]
    if draw.random() < 0.01:
        numbers[draw.randrange(8)] = draw.choice(STRANGE)
    return numbers


def history(seed):
    """Events: most pushes meet, some are refused, and n changes in mid-count."""
    draw = random.Random(f"running {seed}")
    events, end = [], None
    for _ in range(EVENTS):
        if draw.random() < 0.15:
            events.append((EVERY, draw.choice(SETTINGS)))
            continue
        meets = end is None or draw.random() < 0.85
        start, to = draw.randrange(3), (draw.randrange(3) if end is None
                                        else end) if meets else draw.choice([k for k in range(3) if k != end])
        events.append((PUSH, drawn(draw), (start, to), draw.uniform(0.9, 1.1)))
        end = start if meets else end
    return events


def apply(joined, event):
    return joined.every(event[1]) if event[0] == EVERY else joined.push(*event[1:])


def histories_in_python():
    steps = refused = 0
    for seed in range(HISTORIES):
        model, lists, package = Model(), Lists(), Package()
        for at, event in enumerate(history(seed)):
            before = model.count
            expected = apply(model, event)
            steps += model.count < before
            refused += expected == 9
            for joined in (lists, package):
                what = f"history {seed}, event {at}, {type(joined).__name__}"
                same(apply(joined, event), expected, f"{what}: status")
                same(joined.pose_and_frames(), model.pose_and_frames(), f"{what}: the running pose")
    assert steps > 300 and refused > 200, f"{steps} renormalisations and {refused} refusals are too few"


def past_every_count():
    """More products than 16 bits count, then an n: one product more is renormalised, whatever n is."""
    draw = random.Random("many")
    step = drawn(draw)[:4] + [1e-3, 0.0, 0.0, 0.0]
    for n in (65_535, 3):
        model, lists = Model(), Lists()
        for _ in range(66_000):
            model.push(step, (1, 1), 1.0)
            lists.push(step, (1, 1), 1.0)
        same(lists.state[3], 65_535, "the count that is held")
        for joined in (model, lists):
            joined.every(n)
        for _ in range(5):
            same(lists.push(step, (1, 1), 1.0), model.push(step, (1, 1), 1.0), "status")
            same(lists.pose_and_frames(), model.pose_and_frames(),
                 f"the running pose after 66,000 products and n = {n}")


def lengths():
    """Every other length is refused by 100, and nothing is written."""
    right = {"pose": 8, "state": 5, "x": 8, "x_frames": 2}
    for name, signature in raw.RUNNING.items():
        if not name.startswith("running"):
            continue
        for wrong in (argument for argument, _, use in signature if use != raw.NUMBER):
            for count in (0, 1, right[wrong] - 1, right[wrong] + 1, 1000):
                sizes = {**right, wrong: count}
                arguments = [1 if use == raw.NUMBER else (kind * sizes[argument])(*[1] * sizes[argument])
                             for argument, kind, use in signature]
                lists = [x for x in arguments if isinstance(x, ctypes.Array)]
                before = [bytes(x) for x in lists]
                same(raw.call(name, *arguments), 100, f"sim3_{name} with {wrong} of {count}")
                same([bytes(x) for x in lists], before,
                     f"sim3_{name} with {wrong} of {count}: refused, but something was written")


def poses(count):
    draw = random.Random(f"poses {count}")
    return [(drawn(draw), (draw.randrange(65_536), draw.randrange(65_536))) for _ in range(count)]


def renormalized(numbers):
    """A pose's numbers after sim3_renormalize."""
    buffer = doubles(numbers)
    same(raw.call("renormalize", buffer), 0, "sim3_renormalize")
    return list(buffer)


def lists_in_python():
    for count in (0, 1, 2, 3, 7, 500):
        given = poses(count)
        expected = [renormalized(numbers) for numbers, _ in given]
        buffer = doubles([x for numbers, _ in given for x in numbers])
        same(raw.call("renormalize_all", buffer), 0, f"sim3_renormalize_all of {count} poses")
        same(bits(bytes(buffer)), bits(packed([x for numbers in expected for x in numbers])), f"{count} poses")
        found = sim3.renormalize_all([sim3.Pose(numbers, *frames) for numbers, frames in given])
        same([(bits(packed(x.numbers)), (x.from_, x.to)) for x in found],
             [(bits(packed(x)), frames) for x, (_, frames) in zip(expected, given)], "sim3.renormalize_all")
    for count in (1, 7, 9, 8_001):
        buffer = doubles([0.5] * count)
        same(raw.call("renormalize_all", buffer), 100, f"sim3_renormalize_all of {count} numbers")
        same(list(buffer), [0.5] * count, f"{count} numbers after a refusal")


def in_words():
    running = sim3.Running()
    same(running.pose(), None, "the pose before the first")
    assert "no pose yet" in repr(running) and "never" in repr(running), repr(running)
    running.push(sim3.Pose([1, 0, 0, 0, 0, 0, 0, 0], 3, 4))
    running.every(7)
    assert "every 7 products" in repr(running) and "Pose(" in repr(running), repr(running)
    for wrong, kind, part in ((lambda: running.push([1.0] * 8), TypeError, "expected a sim3.Pose"),
                              (lambda: running.every(-1), OverflowError, "n is -1"),
                              (lambda: running.every(1.5), TypeError, "n is float"),
                              (lambda: running.push(sim3.Pose([1.0], 1, 3)), sim3.Refusal,
                               "refusal 100: numbers has 1 number"),
                              (lambda: sim3.renormalize_all([[1.0] * 8]), TypeError, "poses[0]"),
                              (lambda: sim3.compare_tangents([1.0], [1.0] * 7), sim3.Refusal, "refusal 100")):
        try:
            answer = wrong()
        except kind as error:
            assert part in str(error), str(error)
        else:
            raise AssertionError(f"{part}: answered {answer}")


def words_of(event):
    if event[0] == EVERY:
        return struct.pack("<2Q", EVERY, event[1])
    _, numbers, frames, up = event
    return struct.pack("<Q8d2Qd", PUSH, *numbers, *frames, up)


def in_rust():
    histories = [history(seed) for seed in range(HISTORIES)]
    given = poses(100)
    with tempfile.TemporaryDirectory() as work:
        program = rust_program("tests/bindings_lib/running.rs", work)
        outputs = [run([program, "history"], b"".join(map(words_of, events))) for events in histories]
        all_output = run([program, "all"],
                         b"".join(struct.pack("<8d2Q", *numbers, *frames) for numbers, frames in given))
    for seed, (events, answer) in enumerate(zip(histories, outputs)):
        model, at = Model(), 0
        for event in events:
            expected, pose = apply(model, event), model.pose_and_frames()
            found = struct.unpack_from("<12Q", answer, at)
            same(found[:2], (expected, 1 if pose else 0),
                 f"history {seed} in Rust: status, and whether there is a pose")
            if pose:
                same((bits(answer[at + 16:at + 80]), found[10:]), pose, f"history {seed} in Rust: the running pose")
            at += 96
        same(at, len(answer), f"history {seed} in Rust: bytes")
    for at, (numbers, frames) in enumerate(given):
        same(bits(all_output[80 * at:80 * at + 64]), bits(packed(renormalized(numbers))), "renormalize_all in Rust")
        same(struct.unpack_from("<2Q", all_output, 80 * at + 64), frames, "the frames after renormalize_all in Rust")


TESTS = [histories_in_python, past_every_count, lengths, lists_in_python, in_words, in_rust]
