"""`jobs accuracy`: the proved bounds of docs/ACCURACY.md for a box, by sim3.accuracy of the Python binding."""
import math
from fractions import Fraction

from . import host  # so that the binding is found
from .terminal import Failure, Lines

from sim3 import accuracy

assert host

NEAR_UNIT = {64: "2^-50", 32: "2^-21"}  # how far a quaternion that was rounded once can have |q|² from 1


def size(word):
    """A size as it is written: a decimal, or a power as 2^16."""
    base, _, power = word.partition("^")
    try:
        found = Fraction(base) ** int(power) if power else Fraction(base)
    except (ValueError, ZeroDivisionError):
        raise Failure(f"jobs: {word!r} is no size; expected a number, as 65536, 0.5 or 2^16") from None
    if found < 0:
        raise Failure(f"jobs: the size {word} is below zero; expected the greatest absolute value")
    return found


def line(what, bound, statement):
    return f"{what:42} {float(bound):10.3g}  2^{math.log2(bound):<8.2f} {statement}"


def bounds(point, scale, translation, rho, joins, every, width):
    """A line for each answer."""
    at = {"width": width}
    near = NEAR_UNIT[width]
    yield line("a moved coordinate", accuracy.action(point, scale, translation, **at), "ActionTheorem")
    yield line("the same, by act_many", accuracy.action_by_matrix(point, scale, translation, **at), "ManyPointsTheorem")
    yield line(f"by the true rotation, |q|² {near} from 1", accuracy.action(
        point, scale, translation, square=size(near), **at), "RotationTheorem")
    yield line("a product's quaternion", accuracy.product(**at), "QuaternionTheorem")
    yield line("a product's translation", accuracy.action(translation, scale, translation, **at), "ActionTheorem")
    yield line("an inverse's translation", accuracy.inverse(translation, scale, **at), "QuaternionTheorem")
    yield line("a renormalised quaternion", accuracy.renormalized(**at), "QuaternionTheorem")
    yield line("an exponential's translation", accuracy.exponential(rho, **at), "ExponentialTheorem")
    if joins:
        rotation, shift = accuracy.running(joins, every, translation, scale, **at)
        yield line(f"after {joins:,} joins: the rotation", rotation, "RunningTheorem")
        yield line(f"after {joins:,} joins: the translation", shift, "RunningTheorem")
        moved = accuracy.page(joins, every, point, translation, scale, **at)
        yield line(f"after {joins:,} joins: a coordinate", moved, "RunningTheorem")
        true = accuracy.similarity(joins, every, point, translation, scale, **at)
        yield line("the same, by true similarities", true, "SimilarityTheorem")


def report(arguments):
    """The command: 0, or 2."""
    sizes = [size(word) for word in (arguments.point, arguments.scale, arguments.translation, arguments.rho)]
    width = 32 if arguments.single else 64
    out = Lines()
    try:
        out.add(*bounds(*sizes, arguments.joins, arguments.every, width))
    except accuracy.OutOfBounds as error:
        raise Failure(f"jobs: {error}") from None
    out.flush()
    return 0
