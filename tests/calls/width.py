"""The two widths of the engine, as the wrappers, the records and the stored lists have them."""
import pathlib
import re
from collections import namedtuple

# Its name; what stands behind the names of a crate, an exported function and a file; the bytes of a number; C's name
# for it; the one NaN that is written; the format of a number and of that many bits in Python's struct; the folder of
# the stored lists.
Width = namedtuple("Width", "name ending size c nan number bits lists")

LISTS = pathlib.Path(__file__).resolve().parent / "lists"
DOUBLE = Width("f64", "", 8, "double", 0x7FF8000000000000, "d", "Q", LISTS)
SINGLE = Width("f32", "_f32", 4, "float", 0x7FC00000, "f", "I", LISTS / "f32")
WIDTHS = {width.name: width for width in (DOUBLE, SINGLE)}

# The crates that the wrappers call, and those below them.
CRATES = ("ieee linalg tables circle series arms coeffs pairs so3 sim3 point_lists jacobian side_jacobians "
          "dense_jacobian frames framed_jacobian")


def at_width(source, width):
    """The wrappers' source, written at f64, at a width: numbers and the exported names are that width's."""
    if width == DOUBLE:
        return source
    source = re.sub(r"\bf64\b", width.name, source)
    return re.sub(r"(?<=fn )call_\d+", lambda m: m[0] + width.ending, source)
