"""`jobs accuracy`: the proved bounds for a box."""
from .common import holds, jobs


def lines_of(*words):
    return jobs("accuracy", *words)[0].decode().splitlines()


def boxes():
    """The rows of docs/ACCURACY.md."""
    lines = lines_of("--point", "2^16", "--scale", "16", "--translation", "2^20", "--rho", "65536")
    holds(lines[0], "a moved coordinate", "2^-26.34", "ActionTheorem")
    holds(lines[1], "the same, by act_many", "2^-26.", "ManyPointsTheorem")
    holds(lines[2], "by the true rotation, |q|² 2^-50 from 1", "2^-26.", "RotationTheorem")
    holds(lines[5], "an inverse's translation", "2^-22.56")
    holds(lines[7], "an exponential's translation", "2^-27.68")
    holds(lines_of("--single", "--point", "2^16", "--scale", "16", "--translation", "2^20")[0], "2^2.66")
    page = lines_of("--point", "65536", "--scale", "4", "--translation", "65536", "--joins", "1000", "--every", "16")
    holds(page[-2], "after 1,000 joins: a coordinate", "2^-7.52", "RunningTheorem")
    holds(page[-1], "the same, by true similarities", "2^-5.", "SimilarityTheorem")


def what_is_no_box():
    holds(jobs("accuracy", "--point", "far", status=2)[1], "'far' is no size; expected a number")
    holds(jobs("accuracy", "--point=-1", status=2)[1], "below zero")
    holds(jobs("accuracy", "--scale", "2^1100", status=2)[1], "can overflow, so nothing is proved")
    holds(jobs("accuracy", "--single", "--joins", "2", "--every", "65535", status=2)[1], "give a smaller n")


TESTS = [boxes, what_is_no_box]
