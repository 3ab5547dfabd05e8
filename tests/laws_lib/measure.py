"""Errors in units of rounding, and the derivative of a curve by differences."""
import math

UNIT = 2.0 ** -53
STEP = 2.0 ** -7
# Six evaluations around 0: what is left is of the order of STEP^6 and of UNIT / STEP.
WEIGHTS = ((3, 1 / 60), (2, -9 / 60), (1, 45 / 60))


def norm(v):
    return math.sqrt(sum(x * x for x in v))


def error(actual, expected):
    """The norm of the difference over the larger of the expected norm and 1, in units of rounding; NaN stays NaN."""
    scale = norm(expected)
    scale = 1.0 if scale < 1 else scale
    return norm([a - b for a, b in zip(actual, expected, strict=True)]) / scale / UNIT


def worst(errors):
    """The largest error; a NaN wins."""
    errors = list(errors)
    return math.nan if any(e != e for e in errors) else max(errors)


def flat(columns):
    return [x for column in columns for x in column]


def derivative(curve):
    """d/dh at 0 of a curve of numbers."""
    total = None
    for k, weight in WEIGHTS:
        ahead, behind = curve(k * STEP), curve(-k * STEP)
        part = [weight * (a - b) / STEP for a, b in zip(ahead, behind, strict=True)]
        total = part if total is None else [a + b for a, b in zip(total, part)]
    return total
