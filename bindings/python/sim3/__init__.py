"""The proved Sim(3) engine for Python: poses with scale, lists of points, Jacobians.

    import sim3
    turn = [0, 0, 1.5707963267948966, 0, 0, 0, 0.6931471805599453]  # a quarter turn, doubled
    x = sim3.exp(turn, from_=3, to=7)                                # from frame 3 to frame 7
    line = sim3.act_many(x, [1, 0, 0, 2, 0, 0])                      # x y z of every point

A list is any sequence of numbers, array('d') or another buffer of doubles, in the orders that
include/sim3.h states: pose 8, tangent 7, ten values, matrix 9 (column by column), block 31. Answers
are array('d'). Points are x y z of each, flat or a buffer of the shape (n, 3), as many as there are; those of
a numpy array come back as one of the same shape, and `out=` names a buffer to be written. A pose is a Pose: its numbers
and its frames, from_ and to. Poses are joined only where the frames meet. What reads no frame, the action and the
Jacobians, also takes the eight numbers alone.
The host's values (values, up, down, ds, jl, jl_inv) may be left out: sim3.host then computes them.
Every number is taken, NaN and infinities too. What is not answered raises Refusal, whose `number` is
1, 2, 5, 8, 9, 10, 11, 12 or 100; what holds no numbers raises TypeError.

Every call first asks how this thread rounds: what is proved is IEEE 754 with rounding to nearest, nothing flushed to
zero and no traps. In another environment, which a library linked with -ffast-math sets when it is loaded, it raises
OtherEnvironment, and writes nothing; `with sim3.environment():` is a block that computes as it is proved.

sim3.f32 has the same functions over singles. sim3.accuracy says how far an answer can be from the exact one, as proved.

Every function but those of Sheets also takes arrays of numpy of n things, (n, 7), (n, 8), .., at once, and answers
(n, ..) arrays: sim3.arrays says how.

The shared library that this package loads at the first call stands beside it where pip installed it; in the
source tree bindings/build makes it.
"""
from . import accuracy, f32, host, raw
from .arrays import NearRows, Poses, RootRows, block_matrix
from .engine import Engine
from .guard import environment
from .mxcsr import OtherEnvironment
from .poses import Pose
from .raw import LibraryMissing
from .near import Near
from .refusals import Refusal
from .running import Running, renormalize_all
from .sheets import Sheets, Shelved
from .square_root import Root, nearest_root, root
from .tangents import compare_tangents, sort_tangents
from .version import __version__
from .widths import DOUBLE

__all__ = ["LibraryMissing", "Near", "NearRows", "OtherEnvironment", "Pose", "Poses", "Refusal", "Root", "RootRows",
           "Running", "Sheets", "Shelved", "__version__", "accuracy", "act", "block_matrix", "environment", "f32",
           "host", "nearest_arm", "nearest_root", "renormalize_all", "root", "version", *raw.FUNCTIONS, *raw.PATTERNS]


def version() -> str:
    """The version of the library that is loaded, which include/sim3.h has as SIM3_VERSION."""
    return raw.library()["version"]().decode()


# Each function of the table, by the method of its name; they stand one by one for type checkers.
ENGINE = Engine(DOUBLE, host)
exp = ENGINE.exp
mul = ENGINE.mul
inverse = ENGINE.inverse
mul_inv = ENGINE.mul_inv
inv_mul = ENGINE.inv_mul
renormalize = ENGINE.renormalize
act_many = ENGINE.act_many
act_each = ENGINE.act_each
scaled_pair = ENGINE.scaled_pair
coeffs_armed = ENGINE.coeffs_armed
armed_pair = ENGINE.armed_pair
block_pair = ENGINE.block_pair
block_inverse = ENGINE.block_inverse
adjoint = ENGINE.adjoint
act_jacobians_right = ENGINE.act_jacobians_right
act_jacobians_left = ENGINE.act_jacobians_left
compose_jacobians_right = ENGINE.compose_jacobians_right
compose_jacobians_left = ENGINE.compose_jacobians_left
inverse_jacobian_right = ENGINE.inverse_jacobian_right
inverse_jacobian_left = ENGINE.inverse_jacobian_left
nearest_arm = ENGINE.nearest_arm
act = ENGINE.act
