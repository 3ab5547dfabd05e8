"""What a line leaves out: the host's function values, by the module of the Python binding."""
import pathlib
import sys

sys.path.insert(0, str(pathlib.Path(__file__).resolve().parents[2] / "bindings" / "python"))

from sim3.host import NAN, exponential, norm_sq, rotation_jacobians, values


def squared_angle(given):
    return given["z"][0] if "z" in given else norm_sq(given["phi"])


def pose_sigma(given):
    """The log scale whose exponential a pose's record asks for: MU reads its left pose's, CH the running one's."""
    return next(given[name][0] for name in ("left.sigma", "running.sigma", "pose.sigma") if name in given)


# How each group that a record's text may leave out follows from the groups that it gives.
RULES = {
    "values": lambda given: values(given["sigma"][0], squared_angle(given)),
    "up": lambda given: [exponential(pose_sigma(given))],
    "down": lambda given: [exponential(-pose_sigma(given))],
    "J": lambda given: rotation_jacobians(given["phi"])[0],
    "Jinv": lambda given: rotation_jacobians(given["phi"])[1],
}


def computed(name, given):
    """A group that was left out; a NaN has no sign or bits of its own."""
    return [x if x == x else NAN for x in RULES[name](given)]
