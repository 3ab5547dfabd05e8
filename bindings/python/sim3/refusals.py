"""What the engine does not answer, as an exception that says which argument and what to do."""
from .raw import KINDS
from .widths import DOUBLE

MOST_NUMBERS = 65_535  # of a list of points at one call of a C function
LIST_LENGTH = 100  # the number of sim3.h for a list of a wrong length, the boundary's own


class Refusal(ValueError):
    """A refusal of the engine. `number` is its number in include/sim3.h: 1, 2, 5, 8, 9, 10, 11, 12 or 100."""

    def __init__(self, number, text):
        super().__init__(number, text)
        self.number = number

    def __str__(self):
        return self.args[1]


def refusal(number, name, text, width=DOUBLE):
    return Refusal(number, f"{width.package}.{name}: refusal {number}: {text}")


def numbers(count):
    return f"{count:,} number" + ("" if count == 1 else "s")


def wrong_length(name, argument, kind, found, width=DOUBLE):
    expected, order = KINDS[kind]
    return refusal(LIST_LENGTH, name, f"{argument} has {numbers(found)}; expected {expected} ({kind}: {order})", width)


def points_length(name, found, width):
    return refusal(5, name, f"pts has {numbers(found)}, which is no multiple of 3; hand in x y z of every point", width)


def out_length(name, found, expected, width):
    text = f"out has {numbers(found)} where pts has {expected:,}; hand in an out of the same length"
    return refusal(5, name, text, width)


# For each function: which frame of x and which of y must be equal (0 from, 1 to), and words.
COMMON_FRAMES = {
    "mul": (0, "x starts from frame", 1, "y goes to frame", "X Y",
            "hand the poses in the other way round, or an inverse"),
    "mul_inv": (0, "x starts from frame", 0, "y from frame", "X Y^-1",
                "hand in two poses that start from it"),
    "inv_mul": (1, "x goes to frame", 1, "y to frame", "Y^-1 X", "hand in two poses that go to it"),
}


def frames_text(name, x_frames, y_frames):
    i, of_x, j, of_y, joined, remedy = COMMON_FRAMES[name]
    return f"{of_x} {x_frames[i]}, and {of_y} {y_frames[j]}; {joined} wants one frame there, so {remedy}"


def explained(number, name, given, width=DOUBLE):
    """The exception for a number that a C function returned; `given` has its arguments by name."""
    return refusal(number, name, text_of(number, name, given, width), width)


def text_of(number, name, given, width):
    if number == 1:
        return (f"z is {given['z']!r}, below zero; hand in a squared angle, as {width.package}.host.norm_sq(phi) "
                "gives it")
    if number == 2:
        return f"e, the last number of j, is {given['j'][30]!r}; such a block has no inverse, so leave it " \
               "out or look at e first"
    if number == 8:
        return f"z is {given['z']!r}; such a z has no root with what is left, so look at z first"
    if number == 9:
        return frames_text(name, given["x_frames"], given["y_frames"])
    return "the library refused what this package takes for right; they do not belong together, so run bindings/build"
